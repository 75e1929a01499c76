//! Messages as they stand in the format, cut, changed and in pieces. The digests were computed by Python's `hashlib`.

use crate::fixtures::messages::{DEEP_ASK, FIRST_TILE_KEY};
use crate::fixtures::{is_same, is_same_text};
use iiif_io::Outlet;
use iiif_io::fakes::{FailingReader, FailingWriter};
use iiif_peer_wire::{Ask, Version, WireFault, read_ask, read_reply, write_ask, write_reply};
use std::alloc::Global;

/// The ask for that tile.
pub(crate) const ASK: [u8; 24] = [
    0x49, 0x47, 0x41, 0x31, 0x01, 0x00, 0x00, 0x00, 0x0F, 0x00, 0x01, 0x61, 0x00, 0x00, 0x00, 0x02,
    0x00, 0x00, 0x00, 0x00, 0x00, 0x00, 0x00, 0x00,
];

/// The reply to it with the value 1, 2, 3.
pub(crate) const REPLY: [u8; 63] = [
    0x49, 0x47, 0x52, 0x31, 0x00, 0x00, 0x00, 0x0F, 0x00, 0x01, 0x61, 0x00, 0x00, 0x00, 0x02, 0x00,
    0x00, 0x00, 0x00, 0x00, 0x00, 0x00, 0x00, 0x00, 0x00, 0x00, 0x00, 0x03, 0x01, 0x02, 0x03, 0x9C,
    0xB9, 0x5F, 0x5E, 0xD5, 0x6D, 0xFA, 0x01, 0x80, 0x33, 0x22, 0x4F, 0x67, 0xC2, 0x90, 0x8B, 0xFE,
    0xB6, 0x3E, 0x2C, 0xC9, 0xD6, 0x95, 0xBF, 0x37, 0x98, 0xFD, 0x38, 0x78, 0xCE, 0xFB, 0x71,
];

/// The reply to it with fault 3.
const FAULT: [u8; 60] = [
    0x49, 0x47, 0x52, 0x31, 0x00, 0x00, 0x00, 0x0F, 0x00, 0x01, 0x61, 0x00, 0x00, 0x00, 0x02, 0x00,
    0x00, 0x00, 0x00, 0x00, 0x00, 0x00, 0x00, 0x03, 0x00, 0x00, 0x00, 0x00, 0x41, 0x00, 0xA1, 0xF9,
    0xBF, 0xFB, 0xFA, 0xA9, 0x57, 0xC6, 0x8A, 0xA8, 0xD3, 0xBF, 0x22, 0x9C, 0x09, 0xF4, 0x9E, 0xA2,
    0x3B, 0x96, 0x84, 0xCB, 0x7D, 0xC6, 0xCC, 0x6E, 0xF4, 0xC2, 0xC3, 0x77,
];

/// Bytes, of which so many come at once, and how often a read of them doesn't fail.
#[derive(Clone, Copy)]
pub(crate) struct Input<'a> {
    pub(crate) bytes: &'a [u8],
    pub(crate) piece: usize,
    pub(crate) reads: usize,
}

/// Bytes that come seven at once.
pub(crate) const fn sevens(bytes: &[u8]) -> Input<'_> {
    Input {
        bytes,
        piece: 7,
        reads: 1_000_000,
    }
}

/// A reader of an input.
#[derive(Clone, Copy)]
pub(crate) enum Message<'a> {
    Ask,
    /// A reply in a version for a key.
    Reply(Version, &'a [u8]),
}

/// The reply for the key above, in the first version.
pub(crate) const REPLIED: Message<'static> = Message::Reply(Version::One, &FIRST_TILE_KEY);

/// The wanted outcome of a read.
#[derive(Clone, Copy)]
pub(crate) enum Want<'a> {
    /// The input is at its end.
    Nothing,
    /// An ask in a version, for a key in a group, and what is left behind it.
    Ask(Version, u8, &'a [u8], &'a [u8]),
    /// A reply with a status and a value, and what is left behind it.
    Reply(u8, &'a [u8], &'a [u8]),
    Fault(WireFault),
}

/// The outcome of a read.
#[derive(Clone, Copy, Debug, PartialEq)]
enum Heard {
    Right,
    Wrong,
    /// Memory was wanted.
    NoMemory,
}

/// The outcome by a comparison.
fn told(is_right: bool) -> Heard {
    if is_right { Heard::Right } else { Heard::Wrong }
}

/// The outcome by a fault.
fn failed(fault: WireFault, want: Want) -> Heard {
    match want {
        Want::Fault(to_come) if to_come == fault => Heard::Right,
        _ if fault == WireFault::NoMemory => Heard::NoMemory,
        _ => Heard::Wrong,
    }
}

fn reader(input: Input<'_>) -> FailingReader<'_> {
    FailingReader {
        left: input.bytes,
        piece: input.piece,
        reads: input.reads,
    }
}

/// Whether an ask, behind which this is left, is the one that is to come.
fn is_ask(ask: &Ask, left: &[u8], want: Want) -> bool {
    match want {
        Want::Ask(version, group, key, behind) => {
            is_same(&ask.version.digit(), &version.digit())
                && is_same(&ask.group, &group)
                && is_same_text(ask.key.as_slice(), key)
                && is_same(&left, &behind)
        }
        _ => false,
    }
}

/// Reads an ask.
fn hear_ask(alloc: Global, input: Input, want: Want) -> Heard {
    let mut reader = reader(input);
    match read_ask(alloc, &mut reader) {
        Ok(Some(ask)) => told(is_ask(&ask, reader.left, want)),
        Ok(None) => told(matches!(want, Want::Nothing)),
        Err(fault) => failed(fault, want),
    }
}

/// Whether a status and a value, behind which this is left, are those of the reply that is to come.
fn is_reply(status: u8, value: &[u8], left: &[u8], want: Want) -> bool {
    match want {
        Want::Reply(to_come, bytes, behind) => {
            is_same(&status, &to_come) && is_same(&value, &bytes) && is_same(&left, &behind)
        }
        _ => false,
    }
}

/// Reads a reply in a version for a key.
fn hear_reply(alloc: Global, input: Input, version: Version, key: &[u8], want: Want) -> Heard {
    let mut reader = reader(input);
    match read_reply(alloc, &mut reader, version, key) {
        Ok((status, value)) => told(is_reply(status, &value, reader.left, want)),
        Err(fault) => failed(fault, want),
    }
}

/// Reads a message.
fn hear(alloc: Global, input: Input, message: Message, want: Want) -> Heard {
    match message {
        Message::Ask => hear_ask(alloc, input, want),
        Message::Reply(version, key) => hear_reply(alloc, input, version, key, want),
    }
}

/// Whether what is to come of reading a message does, where that is read once more if memory was wanted.
pub(crate) fn is_heard(alloc: Global, input: Input, message: Message, want: Want) -> bool {
    match hear(alloc, input, message, want) {
        Heard::NoMemory => is_same(&hear(alloc, input, message, want), &Heard::Right),
        heard => is_same(&heard, &Heard::Right),
    }
}

/// Another key.
const OTHER: [u8; 15] = [0, 1, 103, 0, 0, 0, 2, 0, 0, 0, 0, 0, 0, 0, 0];

/// The first ask, and three bytes of another behind it.
const ASK_AND_MORE: [u8; 27] = [
    0x49, 0x47, 0x41, 0x31, 0x01, 0x00, 0x00, 0x00, 0x0F, 0x00, 0x01, 0x61, 0x00, 0x00, 0x00, 0x02,
    0x00, 0x00, 0x00, 0x00, 0x00, 0x00, 0x00, 0x00, b'I', b'G', b'A',
];

/// The reply with the value 1, 2, 3, and four bytes of another behind it.
const REPLY_AND_MORE: [u8; 67] = [
    0x49, 0x47, 0x52, 0x31, 0x00, 0x00, 0x00, 0x0F, 0x00, 0x01, 0x61, 0x00, 0x00, 0x00, 0x02, 0x00,
    0x00, 0x00, 0x00, 0x00, 0x00, 0x00, 0x00, 0x00, 0x00, 0x00, 0x00, 0x03, 0x01, 0x02, 0x03, 0x9C,
    0xB9, 0x5F, 0x5E, 0xD5, 0x6D, 0xFA, 0x01, 0x80, 0x33, 0x22, 0x4F, 0x67, 0xC2, 0x90, 0x8B, 0xFE,
    0xB6, 0x3E, 0x2C, 0xC9, 0xD6, 0x95, 0xBF, 0x37, 0x98, 0xFD, 0x38, 0x78, 0xCE, 0xFB, 0x71, b'I',
    b'G', b'R', b'1',
];

/// That reply in the second version.
const SECOND_REPLY: [u8; 63] = [
    0x49, 0x47, 0x52, 0x32, 0x00, 0x00, 0x00, 0x0F, 0x00, 0x01, 0x61, 0x00, 0x00, 0x00, 0x02, 0x00,
    0x00, 0x00, 0x00, 0x00, 0x00, 0x00, 0x00, 0x00, 0x00, 0x00, 0x00, 0x03, 0x01, 0x02, 0x03, 0x9C,
    0xB9, 0x5F, 0x5E, 0xD5, 0x6D, 0xFA, 0x01, 0x80, 0x33, 0x22, 0x4F, 0x67, 0xC2, 0x90, 0x8B, 0xFE,
    0xB6, 0x3E, 0x2C, 0xC9, 0xD6, 0x95, 0xBF, 0x37, 0x98, 0xFD, 0x38, 0x78, 0xCE, 0xFB, 0x71,
];

/// Bytes, how many of them come at once, what is read of them, and what is to come of it. A refusal is the first from the left.
static MESSAGES: [(&[u8], usize, Message, Want); 21] = [
    (&[], 7, Message::Ask, Want::Nothing),
    (
        DEEP_ASK,
        7,
        Message::Ask,
        Want::Ask(Version::Two, 1, &OTHER, b""),
    ),
    (
        b"IGA3\x01\0\0\0\0",
        7,
        Message::Ask,
        Want::Fault(WireFault::Magic),
    ),
    (b"IGR1", 7, Message::Ask, Want::Fault(WireFault::Magic)),
    (b"IGB", 7, Message::Ask, Want::Fault(WireFault::Short)),
    (b"IGA1\x00", 7, Message::Ask, Want::Fault(WireFault::Magic)),
    (b"IGA1\x03", 7, Message::Ask, Want::Fault(WireFault::Magic)),
    (
        b"IGA1\x01\0\0\x10\x01",
        7,
        Message::Ask,
        Want::Fault(WireFault::Long),
    ),
    (
        b"IGA1\x01\xFF\xFF\xFF\xFF",
        7,
        Message::Ask,
        Want::Fault(WireFault::Long),
    ),
    (
        &SECOND_REPLY,
        7,
        Message::Reply(Version::Two, &FIRST_TILE_KEY),
        Want::Reply(0, &[1, 2, 3], b""),
    ),
    (&SECOND_REPLY, 7, REPLIED, Want::Fault(WireFault::Magic)),
    (
        &REPLY,
        7,
        Message::Reply(Version::Two, &FIRST_TILE_KEY),
        Want::Fault(WireFault::Magic),
    ),
    (&FAULT, 7, REPLIED, Want::Reply(3, &[], b"")),
    (b"IGR2", 7, REPLIED, Want::Fault(WireFault::Magic)),
    (
        b"IGR1\0\0\x10\x01",
        7,
        REPLIED,
        Want::Fault(WireFault::Long),
    ),
    // Another key and a status above 4: the key.
    (
        b"IGR1\0\0\0\x01b\x05\0\0\0\0",
        3,
        REPLIED_FOR_A,
        Want::Fault(WireFault::Key),
    ),
    // A fault with a value of one byte: the status.
    (
        b"IGR1\0\0\0\x01a\x02\0\0\0\x01\x07",
        3,
        REPLIED_FOR_A,
        Want::Fault(WireFault::Status),
    ),
    // A fault with a value above 64 MiB: the length.
    (
        b"IGR1\0\0\0\x01a\x02\x04\0\0\x01",
        3,
        REPLIED_FOR_A,
        Want::Fault(WireFault::Long),
    ),
    (
        b"IGR1\0\0\0\x01a\0\x04\0\0\x01",
        3,
        REPLIED_FOR_A,
        Want::Fault(WireFault::Long),
    ),
    // The longest value is announced, and nothing comes.
    (
        b"IGR1\0\0\0\x01a\0\x04\0\0\0",
        3,
        REPLIED_FOR_A,
        Want::Fault(WireFault::Short),
    ),
    (
        &ASK,
        7,
        Message::Ask,
        Want::Ask(Version::One, 1, &FIRST_TILE_KEY, b""),
    ),
];

/// A reply for the key `a`.
const REPLIED_FOR_A: Message<'static> = Message::Reply(Version::One, b"a");

/// Each row changes one byte of the reply, at a place and to a value, and is read up to an end.
static CHANGES: [(usize, u8, usize, WireFault); 8] = [
    (22, 1, 23, WireFault::Key),
    (8, 1, 23, WireFault::Key),
    (23, 5, 24, WireFault::Status),
    (23, 255, 24, WireFault::Status),
    (24, 5, 28, WireFault::Long),
    (23, 2, 28, WireFault::Status),
    (30, 4, 63, WireFault::Digest),
    (62, 0, 63, WireFault::Digest),
];

/// Whether the changed reply is not read for this reason.
pub(crate) fn is_refused(
    alloc: Global,
    place: usize,
    byte: u8,
    end: usize,
    fault: WireFault,
) -> bool {
    let mut bytes = REPLY;
    if let Some(here) = bytes.get_mut(place) {
        *here = byte;
    }
    let (front, _) = bytes.split_at(end.min(63));
    is_heard(alloc, sevens(front), REPLIED, Want::Fault(fault))
}

#[test]
fn messages_are_read_or_refused(rt: HostRuntime) {
    for (number, (bytes, piece, message, want)) in MESSAGES.iter().enumerate() {
        let input = Input {
            piece: *piece,
            ..sevens(*bytes)
        };
        assert!(rt;
            is_heard(rt.alloc(), input, *message, *want),
            "message {number}"
        );
    }
    for (place, byte, end, fault) in CHANGES.iter() {
        assert!(rt;
            is_refused(rt.alloc(), *place, *byte, *end, *fault),
            "{place} to {byte}"
        );
    }
}

/// Whether the ask above is read in pieces of so many bytes, and what is behind it is left.
fn is_ask_in_pieces(alloc: Global, piece: usize) -> bool {
    let input = Input {
        piece,
        ..sevens(&ASK_AND_MORE)
    };
    let want = Want::Ask(Version::One, 1, &FIRST_TILE_KEY, b"IGA");
    is_heard(alloc, input, Message::Ask, want)
}

/// Reads the reply so.
fn is_reply_in_pieces(alloc: Global, piece: usize) -> bool {
    let input = Input {
        piece,
        ..sevens(&REPLY_AND_MORE)
    };
    is_heard(alloc, input, REPLIED, Want::Reply(0, &[1, 2, 3], b"IGR1"))
}

#[test]
fn messages_are_read_in_any_pieces(rt: HostRuntime) {
    for piece in 1..30 {
        assert!(rt; is_ask_in_pieces(rt.alloc(), piece), "{piece}");
    }
    for piece in 1..70 {
        assert!(rt; is_reply_in_pieces(rt.alloc(), piece), "{piece}");
    }
}

/// Whether a message that is cut is short, and a reader of its single bytes that fails after so many reads is a fault of the device.
fn is_short(alloc: Global, bytes: &[u8], message: Message, count: usize) -> bool {
    let (front, _) = bytes.split_at(count.min(bytes.len()));
    let failing = Input {
        bytes,
        piece: 1,
        reads: count,
    };
    let is_cut = is_same(&count, &0) && matches!(message, Message::Ask)
        || is_heard(alloc, sevens(front), message, Want::Fault(WireFault::Short));
    is_cut && is_heard(alloc, failing, message, Want::Fault(WireFault::Io))
}

/// An input that ends where an ask begins holds none.
#[test]
fn messages_that_are_cut_or_fail_anywhere(rt: HostRuntime) {
    for count in 0..ASK.len() {
        assert!(rt;
            is_short(rt.alloc(), &ASK, Message::Ask, count),
            "ask at {count}"
        );
    }
    for count in 0..REPLY.len() {
        assert!(rt;
            is_short(rt.alloc(), &REPLY, REPLIED, count),
            "reply at {count}"
        );
    }
}

/// A message that is written.
#[derive(Clone, Copy)]
enum Sent<'a> {
    /// An ask in a version, for a key in a group.
    Ask(Version, u8, &'a [u8]),
    /// A reply in a version for the key above, with the value 1, 2, 3.
    Reply(Version),
    /// A reply for it with fault 3.
    Fault,
}

/// Writes a message. What is no ask is said to be too long.
fn write<W: Outlet>(out: &mut W, sent: Sent) -> Result<(), WireFault> {
    match sent {
        Sent::Ask(version, group, key) => {
            if key.len() > 4096 || (group != 1 && group != 2) {
                return Err(WireFault::Long);
            }
            write_ask(out, version, group, key)
        }
        Sent::Reply(version) => write_reply(out, version, &FIRST_TILE_KEY, 0, &[1, 2, 3]),
        Sent::Fault => write_reply(out, Version::One, &FIRST_TILE_KEY, 3, &[]),
    }
}

/// Whether a message is written so.
fn is_written_so(alloc: Global, sent: Sent, text: &[u8]) -> bool {
    let mut out = Vec::new(alloc);
    write(&mut out, sent).is_ok() && is_same_text(out.as_slice(), text)
}

/// Whether a writer that has room for this front of a message alone takes it and fails.
fn is_cut(alloc: Global, sent: Sent, front: &[u8]) -> bool {
    let mut out = FailingWriter {
        taken: Vec::new(alloc),
        room: front.len(),
        piece: 5,
    };
    is_same(&write(&mut out, sent), &Err(WireFault::Io))
        && is_same_text(out.taken.as_slice(), front)
}

/// Messages, and their bytes.
static SENT: [(Sent, &[u8]); 5] = [
    (Sent::Ask(Version::One, 1, &FIRST_TILE_KEY), &ASK),
    (Sent::Ask(Version::Two, 1, &OTHER), DEEP_ASK),
    (Sent::Reply(Version::One), &REPLY),
    (Sent::Reply(Version::Two), &SECOND_REPLY),
    (Sent::Fault, &FAULT),
];

/// Whether each front of a message is what a writer with so much room takes of it.
fn is_cut_anywhere(alloc: Global, sent: Sent, text: &[u8]) -> bool {
    for room in 0..text.len() {
        let (front, _) = text.split_at(room);
        if !is_cut(alloc, sent, front) {
            return false;
        }
    }
    true
}

#[test]
fn messages_are_written_whole_or_cut(rt: HostRuntime) {
    for (number, (sent, text)) in SENT.iter().enumerate() {
        assert!(rt; is_written_so(rt.alloc(), *sent, *text), "message {number}");
        assert!(rt;
            is_cut_anywhere(rt.alloc(), *sent, *text),
            "message {number}"
        );
    }
}

/// Whether an ask in group 2 for a key of bytes 7 is so long, and is read.
fn is_ask_of(alloc: Global, key: &[u8], len: usize) -> bool {
    let mut out = Vec::new(alloc);
    if write(&mut out, Sent::Ask(Version::One, 2, key)).is_err() || out.len() != len {
        return false;
    }
    let input = Input {
        bytes: &out,
        piece: 1000,
        reads: 1_000_000,
    };
    is_heard(
        alloc,
        input,
        Message::Ask,
        Want::Ask(Version::One, 2, key, b""),
    )
}

#[test]
fn ask_without_a_key_and_the_longest(rt: HostRuntime) {
    for (size, len) in [(0, 9), (4096, 4105)] {
        let key = [7; 4096];
        let (key, _) = key.split_at(size);
        assert!(rt; is_ask_of(rt.alloc(), key, len), "{size}");
    }
}

/// Faults, and their numbers.
static FAULTS: [(WireFault, u8); 8] = [
    (WireFault::Magic, 1),
    (WireFault::Short, 2),
    (WireFault::Long, 3),
    (WireFault::Key, 4),
    (WireFault::Digest, 5),
    (WireFault::Status, 6),
    (WireFault::Io, 7),
    (WireFault::NoMemory, 8),
];

#[test]
fn faults_have_their_numbers(rt: HostRuntime) {
    for (fault, number) in FAULTS.iter() {
        assert!(rt; is_same(&fault.number(), number));
    }
}
