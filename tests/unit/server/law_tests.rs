//! The laws of answers, at devices of memory.

use iiif_answers::laws::{
    allowed_is_framed, calls_are_not_passed_over, fields_are_plain, heads_read_back,
    whole_over_honest_devices,
};
use iiif_io::{CountingSink, FixedBuffer};
use iiif_source::MemSource;
use std::marker::Brand;

/// The laws are proved of any source, reader, writer and ledgers that keep their traits' contracts. That there are such, so that no law is
/// about nothing, is what their proofs don't show: here are some, as bytes of images in memory, a reader that never fails, and a writer
/// that never fails, or where its room is full. At run time nothing is computed.
#[test]
fn laws_of_answers_stand_at_memory() {
    calls_are_not_passed_over::<(), MemSource, Brand, &'static [u8], CountingSink>();
    allowed_is_framed::<(), MemSource, Brand, CountingSink>();
    fields_are_plain::<(), MemSource>();
    heads_read_back::<(), MemSource>();
    whole_over_honest_devices::<(), MemSource, Brand, FixedBuffer<64>>();
}
