//! Tests of what a node keeps and finds, which call only what is public: the bytes of keys and values, and blocks beside the plain way
//! (`iiif_keys`); caches, call by call (`iiif_byte_cache`); tables of one thread and of two (`iiif_singleflight`); images by their
//! names, and their tiles (`iiif_tile_group`); owners of keys (`iiif_ring`).

mod block_plain;
mod block_tests;
mod cache_tests;
mod flight_tests;
mod image_tests;
mod key_tests;
mod ring_tests;
