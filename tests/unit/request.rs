//! Tests of what becomes of a request, which call only what is public: requests and targets as they are read (`iiif_request`),
//! resolved, written anew and read back (`iiif_canonical`); information (`iiif_info`); plans and bands (`iiif_planner`) by
//! hand; images in bands and by several workers (`iiif_assemble`), and as they are sent (`iiif_delivery`).

mod answers;
mod assemble_tests;
mod band_tests;
mod canonical_tests;
mod delivery_tests;
mod info_tests;
mod pictures;
mod plan_tests;
mod refused_tests;
mod request_tests;
