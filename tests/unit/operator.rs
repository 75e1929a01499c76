//! Tests of what an operator writes and reads, which call only what is public: lists of images, and what they name
//! (`iiif_image_list`); the log's lines, its queue and the thread that writes (`iiif_log`); counts, and who asks for them (`iiif_metrics`).

mod count_tests;
mod image_list_tests;
mod line_tests;
mod log_tests;
mod metrics_tests;
