//! Replies in memory: right, cut, changed, for another key, and faults; readers and writers that fail.

use crate::fixtures::messages::{
    DEEP_ASK, DEEP_REPLY, DEEP_VALUE, TILE_ASK, TILE_REPLY, TILE_VALUE,
};
use crate::fixtures::{is_missing, is_same, is_same_text, is_unwanted};
use crate::group::ends::Ends;
use crate::group::keys::{
    DEEP, DEEP_REPLY_ONE, OTHER_REPLY, SAMPLE, SHORT_VALUE_REPLY, SUM_ASK, SUM_REPLY, SUM_VALUE,
    UNKNOWN_REPLY, block, tile,
};
use iiif_group::LinkFault;
use iiif_io::fakes::{FailingReader, FailingWriter};
use iiif_keys::{CacheKey, Shape};
use iiif_peer_link::{ask_over, ask_value_over};
use iiif_peer_wire::{Version, WireFault};
use std::alloc::Global;

/// Whose value is asked for.
enum Of {
    /// The tile of 16 bits.
    Deep,
    Tile,
    Sum,
}

/// The result of an ask: the bytes of its value, or the fault. None where the key doesn't fit, or memory was wanted.
type Came = Option<Result<Vec<u8>, LinkFault>>;

/// Asks for the value of a key in a group.
fn value_came<K: CacheKey>(
    alloc: Global,
    group: u8,
    key: &K,
    shape: &Shape,
    ends: Ends<'_, '_>,
) -> Came {
    if !key.fits(2, shape) {
        return None;
    }
    match ask_value_over(alloc, ends, group, key, shape) {
        Ok(value) => Some(Ok(K::value_bytes(alloc, &value).ok()?)),
        Err(fault) => Some(Err(fault)),
    }
}

/// Asks for either.
fn came(alloc: Global, of: &Of, ends: Ends<'_, '_>) -> Came {
    match of {
        Of::Deep => value_came(alloc, 1, &tile(alloc, "g", (0, 0)).ok()?, &DEEP, ends),
        Of::Tile => value_came(alloc, 1, &tile(alloc, "a", (1, 1)).ok()?, &SAMPLE, ends),
        Of::Sum => value_came(alloc, 2, &block(alloc, 0, 0).ok()?, &SAMPLE, ends),
    }
}

/// Whether an ask, over a writer with so much room, sends as much of it, and a reply that is read so many bytes at a time and so often at
/// most gives what it has to.
fn is_right(
    alloc: Global,
    of: &Of,
    reply: (&[u8], usize, usize),
    room: usize,
    wanted: Result<&[u8], LinkFault>,
) -> bool {
    let (left, piece, reads) = reply;
    let reader = FailingReader { left, piece, reads };
    let mut out = FailingWriter {
        taken: Vec::new(alloc),
        room,
        piece: 5,
    };
    let ends = Ends {
        out: &mut out,
        reader,
    };
    let came = came(alloc, of, ends);
    let ask = match of {
        Of::Deep => DEEP_ASK,
        Of::Tile => TILE_ASK,
        Of::Sum => SUM_ASK,
    };
    let (sent, _) = ask.split_at(room.min(ask.len()));
    is_same_text(out.taken.as_slice(), sent)
        && match (came, wanted) {
            (Some(Ok(value)), Ok(bytes)) => is_same_text(value.as_slice(), bytes),
            (Some(Err(fault)), Err(wanted)) => is_same(&fault, &wanted),
            (Some(Err(fault)), Ok(_)) => is_unwanted(&fault),
            (Some(Ok(value)), Err(_)) => is_unwanted(&value.as_slice()),
            (None, _) => is_missing(),
        }
}

/// Replies, how many bytes of them are read at a time, and what they give.
static REPLIES: [(Of, &[u8], usize, Result<&[u8], LinkFault>); 14] = [
    (Of::Deep, DEEP_REPLY, 1, Ok(DEEP_VALUE)),
    (Of::Deep, DEEP_REPLY, 7, Ok(DEEP_VALUE)),
    (Of::Deep, DEEP_REPLY, 4096, Ok(DEEP_VALUE)),
    (Of::Tile, TILE_REPLY, 1, Ok(TILE_VALUE)),
    (Of::Tile, TILE_REPLY, 7, Ok(TILE_VALUE)),
    (Of::Tile, TILE_REPLY, 4096, Ok(TILE_VALUE)),
    (Of::Sum, SUM_REPLY, 1, Ok(SUM_VALUE)),
    (Of::Sum, SUM_REPLY, 7, Ok(SUM_VALUE)),
    (Of::Sum, SUM_REPLY, 4096, Ok(SUM_VALUE)),
    (
        Of::Deep,
        DEEP_REPLY_ONE,
        3,
        Err(LinkFault::Wire(WireFault::Magic)),
    ),
    (
        Of::Deep,
        OTHER_REPLY,
        3,
        Err(LinkFault::Wire(WireFault::Key)),
    ),
    (Of::Deep, SHORT_VALUE_REPLY, 3, Err(LinkFault::Value)),
    (Of::Deep, UNKNOWN_REPLY, 3, Err(LinkFault::Refused(3))),
    (
        Of::Deep,
        DEEP_ASK,
        3,
        Err(LinkFault::Wire(WireFault::Magic)),
    ),
];

#[test]
fn right_replies_give_the_values_and_others_are_faults(rt: HostRuntime) {
    for (line, (of, reply, piece, wanted)) in REPLIES.iter().enumerate() {
        let reply = (*reply, *piece, 1000);
        assert!(rt; is_right(rt.alloc(), of, reply, 100, *wanted), "{line}");
    }
}

/// Whether the reply with a byte of its value changed is refused. None where there is no such byte, or memory was wanted.
fn is_refused(alloc: Global, at: usize) -> Option<bool> {
    let mut reply = Vec::from_slice(alloc, DEEP_REPLY).ok()?;
    let byte = reply.get_mut(at)?;
    *byte ^= 1;
    let reply = (reply.as_slice(), 4096, 1000);
    let wanted = Err(LinkFault::Wire(WireFault::Digest));
    Some(is_right(alloc, &Of::Deep, reply, 100, wanted))
}

#[test]
fn reply_with_one_changed_byte(rt: HostRuntime) {
    // The value's bytes begin behind the magic, the key, the status and the length.
    for at in 28..41usize {
        assert!(rt; is_refused(rt.alloc(), at) == Some(true), "at {at}");
    }
}

/// Whether a reply that ends after so many bytes is too short, and one whose reads fail from there on a fault of reading.
fn is_cut(alloc: Global, cut: usize) -> bool {
    let (front, _) = DEEP_REPLY.split_at(cut.min(DEEP_REPLY.len()));
    let short = Err(LinkFault::Wire(WireFault::Short));
    let failed = Err(LinkFault::Wire(WireFault::Io));
    is_right(alloc, &Of::Deep, (front, 7, 1000), 100, short)
        && is_right(alloc, &Of::Deep, (DEEP_REPLY, 1, cut), 100, failed)
}

#[test]
fn reply_cut_after_each_byte(rt: HostRuntime) {
    for cut in 0..DEEP_REPLY.len() {
        assert!(rt; is_cut(rt.alloc(), cut), "at {cut}");
    }
}

#[test]
fn ask_cut_after_each_byte(rt: HostRuntime) {
    let reply = (DEEP_REPLY, 4096, 1000);
    let failed = Err(LinkFault::Wire(WireFault::Io));
    for room in 0..DEEP_ASK.len() {
        assert!(rt;
            is_right(rt.alloc(), &Of::Deep, reply, room, failed),
            "at {room}"
        );
    }
}

#[test]
fn key_of_bytes_is_asked_for(rt: HostRuntime) {
    let reader = FailingReader {
        left: b"IGR1\0\0\0\x01k\x02\0\0\0\0\x82",
        piece: 4096,
        reads: 1000,
    };
    let mut out = FailingWriter {
        taken: Vec::new(rt.alloc()),
        room: 100,
        piece: 5,
    };
    let ends = Ends {
        out: &mut out,
        reader,
    };
    let came = ask_over(rt.alloc(), ends, Version::One, 2, b"k");
    let is_short = matches!(came, Err(LinkFault::Wire(WireFault::Short)));
    assert!(rt; is_short && is_same_text(out.taken.as_slice(), b"IGA1\x02\0\0\0\x01k"));
}
