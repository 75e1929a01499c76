//! Tests of the machine over events and of its lists, which call only what is public: keys, numbers, faults and laws
//! (`iiif_machine`); lists of events that are run as one, lines that are none, worlds that can't begin, and lists of which a growth
//! of memory is refused (`iiif_event_list`). What lists come to, line by line, stands in `stdin` and `stdout` of `iiif_replay`.

mod key_tests;
mod list_tests;
mod machine_tests;
mod refused_tests;
mod running_tests;
