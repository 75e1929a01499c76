//! Asks in one stream, however they are cut, and devices that fail.

use crate::fixtures::{is_same, is_same_text};
use iiif_io::fakes::{FailingReader, FailingWriter};
use iiif_peer_wire::{Answers, Ask, Version, read_reply, serve_peer, write_ask};
use std::alloc::Global;

/// Replies with the key itself, and refuses the second group. It counts what it answers.
#[derive(Drop)]
struct Own;

impl<R> Answers<R, u32> for Own {
    ghost answers = { λ _ version group key status value. Unit {0} };

    fn answer(&self, _rt: &R, alloc: Global, passes: &mut u32, ask: &Ask) -> (u8, Vec<u8>) {
        *passes = passes.saturating_add(1);
        if ask.group != 1 || ask.key.len() > 4096 {
            return (4, Vec::new(alloc));
        }
        match Vec::from_slice(alloc, ask.key.as_slice()) {
            Ok(value) => (0, value),
            Err(_) => (2, Vec::new(alloc)),
        }
    }
}

/// A reader of these bytes.
fn reader(bytes: &[u8], piece: usize, reads: usize) -> FailingReader<'_> {
    FailingReader {
        left: bytes,
        piece,
        reads,
    }
}

/// The replies to such an input, and how many asks were answered.
fn served(rt: &HostRuntime, input: &[u8], piece: usize, reads: usize) -> (Vec<u8>, u32) {
    let alloc = rt.alloc();
    let mut out = Vec::new(alloc);
    let mut count = 0u32;
    serve_peer(
        rt,
        alloc,
        &Own,
        &mut count,
        &mut reader(input, piece, reads),
        &mut out,
    );
    (out, count)
}

/// Whether just this is written for such an input, and so many asks are answered.
fn is_served(
    rt: &HostRuntime,
    input: &[u8],
    piece: usize,
    reads: usize,
    written: &[u8],
    count: u32,
) -> bool {
    let (out, seen) = served(rt, input, piece, reads);
    is_same(&seen, &count) && is_same_text(out.as_slice(), written)
}

/// The version of the ask of a number: the odd ones are of the second.
fn version_of(n: u32) -> Version {
    if n % 2 == 0 {
        Version::One
    } else {
        Version::Two
    }
}

/// Asks for so many keys, one after another.
fn asks(alloc: Global, count: u32) -> Vec<u8> {
    let mut input = Vec::new(alloc);
    for n in 0..count {
        if write_ask(&mut input, version_of(n), 1, &n.to_be_bytes()).is_err() {
            break;
        }
    }
    input
}

/// How many right replies stand there in order, and whether nothing stands behind them.
fn right_replies(alloc: Global, output: &[u8], most: u32) -> (u32, bool) {
    let mut back = reader(output, 4096, 1_000_000);
    let mut right = 0u32;
    for n in 0..most {
        match read_reply(alloc, &mut back, version_of(n), &n.to_be_bytes()) {
            Ok((0, value)) if value.as_slice() == n.to_be_bytes().as_slice() => {
                right = right.saturating_add(1);
            }
            _ => break,
        }
    }
    (right, back.left.is_empty())
}

/// Whether so many of these asks are answered, in order, and nothing more is written.
fn is_answered(rt: &HostRuntime, count: u32, piece: usize, answered: u32) -> bool {
    let input = asks(rt.alloc(), count);
    let (out, seen) = served(rt, input.as_slice(), piece, 1_000_000);
    is_same(&seen, &answered)
        && is_same(
            &right_replies(rt.alloc(), out.as_slice(), 1001),
            &(answered, true),
        )
}

/// Counts of asks, in how large pieces they come, and how many are answered.
static COUNTS: [(u32, usize, u32); 6] = [
    (0, 1, 0),
    (3, 1, 3),
    (3, 7, 3),
    (3, 4096, 3),
    (1000, 4096, 1000),
    (1001, 4096, 1000),
];

#[test]
fn thousand_asks_are_answered_in_order_and_no_more(rt: HostRuntime) {
    for (count, piece, answered) in COUNTS.iter() {
        assert!(rt;
            is_answered(&rt, *count, *piece, *answered),
            "{count} asks by {piece}"
        );
    }
}

/// An ask of version 2 in the first group for `ab`, and one of version 1 in the second for `key`.
const TWO: &[u8] = b"IGA2\x01\0\0\0\x02abIGA1\x02\0\0\0\x03key";

/// The reply of version 2 for `ab` with the value `ab`, and that of version 1 for `key` with status 4. The digests are Python's.
static TWO_REPLIES: [u8; 97] = [
    0x49, 0x47, 0x52, 0x32, 0x00, 0x00, 0x00, 0x02, 0x61, 0x62, 0x00, 0x00, 0x00, 0x00, 0x02, 0x61,
    0x62, 0xa6, 0x67, 0x28, 0x26, 0x75, 0xf4, 0x87, 0x60, 0x21, 0xd3, 0x92, 0xaa, 0x65, 0x92, 0xf3,
    0x9d, 0xab, 0xf7, 0x18, 0x74, 0x8c, 0x4b, 0x73, 0x85, 0x63, 0xcb, 0x9d, 0x5d, 0xc8, 0xf2, 0x1f,
    0x24, 0x49, 0x47, 0x52, 0x31, 0x00, 0x00, 0x00, 0x03, 0x6b, 0x65, 0x79, 0x04, 0x00, 0x00, 0x00,
    0x00, 0x2c, 0x70, 0xe1, 0x2b, 0x7a, 0x06, 0x46, 0xf9, 0x22, 0x79, 0xf4, 0x27, 0xc7, 0xb3, 0x8e,
    0x73, 0x34, 0xd8, 0xe5, 0x38, 0x9c, 0xff, 0x16, 0x7a, 0x1d, 0xc3, 0x0e, 0x73, 0xf8, 0x26, 0xb6,
    0x83,
];

#[test]
fn each_ask_is_answered_in_its_version(rt: HostRuntime) {
    assert!(rt; is_served(&rt, TWO, 4096, 1_000_000, &TWO_REPLIES, 2));
}

/// The replies, and how many asks are answered, where so many bytes came: the asks end after 11 and 23.
fn whole_before(came: usize) -> (&'static [u8], u32) {
    if came < 11 {
        (&[], 0)
    } else if came < 23 {
        (&TWO_REPLIES[..49], 1)
    } else {
        (&TWO_REPLIES, 2)
    }
}

#[test]
fn asks_cut_after_each_byte(rt: HostRuntime) {
    for cut in 0..=TWO.len() {
        let (written, count) = whole_before(cut);
        assert!(rt;
            is_served(&rt, &TWO[..cut], 3, 1_000_000, written, count),
            "at {cut}"
        );
    }
}

/// Asks that came whole before a read failed are answered.
#[test]
fn reader_that_fails_loses_no_ask(rt: HostRuntime) {
    for reads in 0..=TWO.len() {
        let (written, count) = whole_before(reads);
        assert!(rt;
            is_served(&rt, TWO, 1, reads, written, count),
            "after {reads}"
        );
    }
}

/// Whether a writer with so much room gets just what there is room for.
fn gets_its_room(rt: &HostRuntime, room: usize) -> bool {
    let mut out = FailingWriter {
        taken: Vec::new(rt.alloc()),
        room,
        piece: 9,
    };
    let mut count = 0u32;
    serve_peer(
        rt,
        rt.alloc(),
        &Own,
        &mut count,
        &mut reader(TWO, 5, 1_000_000),
        &mut out,
    );
    is_same(&TWO_REPLIES.get(..room), &Some(out.taken.as_slice()))
}

#[test]
fn writer_that_fails_gets_a_prefix(rt: HostRuntime) {
    for room in 0..TWO_REPLIES.len() {
        assert!(rt; gets_its_room(&rt, room), "with room for {room}");
    }
}

/// Asks at fault: another magic, a version 3, a group 3, a key of 4,097 bytes. What stands behind them isn't answered.
static REFUSED: [&[u8]; 5] = [
    b"IGR1\x01\0\0\0\x01aIGA1\x01\0\0\0\x01a",
    b"IGA3\x01\0\0\0\x01aIGA1\x01\0\0\0\x01a",
    b"IGA1\x03\0\0\0\x01aIGA1\x01\0\0\0\x01a",
    b"IGA1\0\0\0\0\x01aIGA1\x01\0\0\0\x01a",
    b"IGA1\x01\0\0\x10\x01aIGA1\x01\0\0\0\x01a",
];

#[test]
fn nothing_follows_an_ask_at_fault(rt: HostRuntime) {
    for (place, input) in REFUSED.iter().enumerate() {
        assert!(rt;
            is_served(&rt, input, 4096, 1_000_000, &[], 0),
            "ask {place}"
        );
    }
}
