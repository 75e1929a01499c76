//! Tests of what goes over wires, which call only what is public: devices that fail (`iiif_io`); heads as they come and as they are written
//! (`iiif_http_front`); messages between nodes, whole and cut (`iiif_peer_wire`), asks in one stream (`iiif_peer_wire`), and keys with
//! the versions of files in them (`iiif_peer_versions`); many connections at once, slow ones, and some that are gone, over loopback
//! (`iiif_listener`); links that fail and come back (`iiif_breaker`).

mod breaker_tests;
mod echo;
mod gone_tests;
mod head_tests;
mod io_tests;
mod listen_tests;
mod message_tests;
mod pace_tests;
mod peer_tests;
mod place_tests;
mod refused_tests;
mod versions_tests;
mod writes;
