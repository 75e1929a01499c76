//! Tests of `iiif_pixel` and `iiif_area`, which call only what is public: turns, qualities, crops and samples in place; sums and
//! averages beside the plain way.

mod area_plain;
mod area_tests;
mod cuts;
mod growth_tests;
mod pictures;
mod pixel_tests;
