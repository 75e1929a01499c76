//! Tests of groups, which call only what is public: calls that share a load, are held at a gate, noted there, asked of the key's owner or
//! fall back from it (`iiif_group`); sums made of their parts (`iiif_sum_group`), also of parts that the caller gets (`iiif_group_items`);
//! what a node replies to others, crossed nodes, cut replies and peers that lie (`iiif_peer_groups`); links over TCP and over memory
//! (`iiif_peer_link`); and a device that turns bits (`iiif_witnesses`).

mod acts;
mod bars;
mod calls;
mod cases;
mod crossed_tests;
mod crossings;
mod cut_tests;
mod doorways;
mod ends;
mod fall_back_tests;
mod flipping_tests;
mod keys;
mod link_memory_tests;
mod link_tcp_tests;
mod meeting_tests;
mod meetings;
mod messages;
mod nodes;
mod note_tests;
mod owner_tests;
mod parts;
mod peers;
mod recorders;
mod refusal_tests;
mod run_tests;
mod runs;
mod scenes;
mod two_nodes_tests;
