//! Bytes that reach a writer that fails, and that come of a reader that does.

use super::writes::Writes;
use crate::fixtures::{is_same, is_same_text};
use iiif_io::fakes::{FailingReader, FailingWriter};
use iiif_io::{CountingSink, FixedBuffer, Inlet, send, send_both};
use std::alloc::Global;
use std::test::Fail;

const HEAD: &[u8] = b"HTTP/1.1 200 OK\r\n\r\n";

const BODY: &[u8] = b"body";

/// Both, one after another.
const TEXT: &[u8] = b"HTTP/1.1 200 OK\r\n\r\nbody";

const ASK: &[u8] = b"GET / HTTP/1.1";

/// Whether a writer that has room for a front of the text alone takes it, and says so.
fn is_cut_after(alloc: Global, room: usize) -> bool {
    let mut out = FailingWriter {
        taken: Vec::new(alloc),
        room,
        piece: 3,
    };
    let cut = is_same(&send_both(&mut out, HEAD, BODY).err(), &(Some(room as u64)));
    cut && is_same(&TEXT.get(..room), &Some(out.taken.as_slice()))
}

/// Whether a writer that takes so many bytes at once takes all.
fn is_sent_by(alloc: Global, piece: usize) -> bool {
    let mut out = FailingWriter {
        taken: Vec::new(alloc),
        room: 100,
        piece,
    };
    send(&mut out, ASK).is_ok() && is_same_text(out.taken.as_slice(), ASK)
}

/// Whether a vector takes all.
fn is_sent_to_a_vector(alloc: Global) -> bool {
    let mut out = Vec::new(alloc);
    send(&mut out, b"II*").is_ok() && is_same_text(out.as_slice(), b"II*")
}

#[test]
fn writers_take_the_text_or_what_they_have_room_for(rt: HostRuntime) {
    for room in 0..TEXT.len() {
        assert!(rt; is_cut_after(rt.alloc(), room), "room for {room}");
    }
    for piece in 1..8 {
        assert!(rt; is_sent_by(rt.alloc(), piece), "pieces of {piece}");
    }
    assert!(rt; is_sent_to_a_vector(rt.alloc()));
}

/// The writes by which a writer is sent a text of fourteen bytes, of which it takes so many a write: no more than it needs.
static SENDS: [(usize, &[usize]); 3] = [(100, &[14]), (14, &[14]), (5, &[14, 9, 4])];

/// The writes by which a writer is sent a head of nineteen bytes and a body of four: the two go together until the head is taken.
static SENDS_OF_BOTH: [(usize, &[usize]); 4] = [
    (100, &[23]),
    (21, &[23, 2]),
    (19, &[23, 4]),
    (7, &[23, 16, 9, 2]),
];

/// Whether a text is sent by these writes.
fn is_sent_in(alloc: Global, piece: usize, writes: &[usize]) -> bool {
    let mut out = Writes::new(alloc, piece);
    send(&mut out, ASK).is_ok() && is_same(&out.sizes.as_slice(), &writes)
}

/// Whether a head and a body are sent by these writes.
fn are_sent_in(alloc: Global, piece: usize, writes: &[usize]) -> bool {
    let mut out = Writes::new(alloc, piece);
    send_both(&mut out, HEAD, BODY).is_ok() && is_same(&out.sizes.as_slice(), &writes)
}

#[test]
fn texts_are_sent_by_as_few_writes_as_the_writer_takes_them_in(rt: HostRuntime) {
    for (piece, writes) in SENDS.iter() {
        assert!(rt;
            is_sent_in(rt.alloc(), *piece, *writes),
            "pieces of {piece}"
        );
    }
    for (piece, writes) in SENDS_OF_BOTH.iter() {
        assert!(rt;
            are_sent_in(rt.alloc(), *piece, *writes),
            "pieces of {piece}"
        );
    }
}

/// How many bytes a read of up to four gives, and these.
type Read = Option<(usize, [u8; 4])>;

/// The bytes of a read; none where it fails.
fn read<I: Inlet>(reader: &mut I) -> Read {
    let mut buffer = [0; 4];
    match reader.pull(&mut buffer) {
        Ok(count) => Some((count, buffer)),
        Err(_) => None,
    }
}

/// Whether a reader gives these reads.
fn gives<I: Inlet>(reader: &mut I, reads: [Read; 3]) -> bool {
    for to_come in reads {
        if !is_same(&read(reader), &to_come) {
            return false;
        }
    }
    true
}

#[test]
fn readers_give_what_is_left(rt: HostRuntime) {
    let mut failing = FailingReader {
        left: b"abcde",
        piece: 2,
        reads: 2,
    };
    let pieces = [Some((2, *b"ab\0\0")), Some((2, *b"cd\0\0")), None];
    assert!(rt; gives(&mut failing, pieces));
    let mut slice: &[u8] = b"abcde";
    let all = [
        Some((4, *b"abcd")),
        Some((1, *b"e\0\0\0")),
        Some((0, [0; 4])),
    ];
    assert!(rt; gives(&mut slice, all));
}

/// Whether a sink that has taken so many bytes has taken so many then.
fn is_counted() -> bool {
    let mut few = CountingSink { written: 5 };
    let mut most = CountingSink {
        written: u64::MAX - 1,
    };
    let sent = send_both(&mut few, HEAD, BODY).is_ok() && send(&mut most, b"abc").is_ok();
    sent && is_same(&few.written, &28) && is_same(&most.written, &u64::MAX)
}

/// Texts for a buffer of five bytes, how many it takes where it fails, and what it holds then.
static SENT: [(&[u8], Option<u64>, &[u8]); 4] = [
    (b"abc", None, b"abc"),
    (b"def", Some(2), b"abcde"),
    (b"", None, b"abcde"),
    (b"g", Some(0), b"abcde"),
];

/// Whether a buffer takes what fits of a text, and holds this then.
fn takes(out: &mut FixedBuffer<5>, text: &[u8], cut: Option<u64>, held: &[u8]) -> bool {
    is_same(&send(out, text).err(), &cut) && is_same_text(out.as_slice(), held)
}

/// Whether a buffer takes what fits of each text.
fn takes_what_fits(out: &mut FixedBuffer<5>) -> bool {
    for (text, cut, held) in SENT.iter() {
        if !takes(out, *text, *cut, *held) {
            return false;
        }
    }
    true
}

#[test]
fn sinks_count_and_buffers_fill(rt: HostRuntime) -> Result<(), Fail> {
    assert!(rt; is_counted());
    let mut out = FixedBuffer::new(rt.alloc())?;
    assert!(rt; takes_what_fits(&mut out));
    Ok(())
}
