//! Tests of `iiif_connections`, which call only what is public: nodes over loopback, alone and beside others, what they count, tell and
//! log, and the words that settings are read from.

mod crowd_tests;
mod list_tests;
mod log_tests;
mod loopback_tests;
mod nodes;
mod peer_tests;
mod peers;
mod pipe;
mod settings_tests;
mod stats_tests;
mod viewers;
mod visits;
