//! Tests of `iiif_server`, which call only what is public: answers of a node, calls and connections; images made of tiles and blocks
//! beside those of whole regions, and results above their regions; whole answers beside a plain evaluation of the definitions on whole
//! pictures, whatever the bands, the workers and the caches; workers that load at the same time; and bands that fail;
//! jobs that wait for others; the laws of answers at memory; and two servers, one of which asks the other.

mod answer_tests;
mod assembly_tests;
mod band_tests;
mod calls;
mod cases;
mod drawn;
mod every;
mod faulty;
mod file_tests;
mod job_queue_tests;
mod law_tests;
mod meeting;
mod nodes;
mod once_tests;
mod plain;
mod reference;
mod settings_tests;
mod sizes_tests;
mod stream_tests;
mod told;
mod two_servers_tests;
