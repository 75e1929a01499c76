//! Asks of a node, and whether each has its wanted outcome.

use crate::fixtures::is_same;
use crate::server::cases::{Ask, Input, Verb, Want};
use crate::server::faulty::{Faulty, Reads};
use crate::server::meeting::Meeting;
use crate::server::nodes::Seen;
use crate::server::told::Parts;
use iiif_http_front::{Call, Method};
use iiif_io::fakes::FailingWriter;
use iiif_keys::System;
use iiif_server::{Cut, NoLink, Node, Passes, Sent, Serving, Watch};
use iiif_tables::Book;
use std::alloc::Global;
use std::sync::Wait;
use std::sync::atomic::Ordering;
use std::thread::Threads;
use std::time::Clock;

/// How the body of a target's answer ends.
fn body_of<R: Threads + Wait + Clock + Sync, J: System + Send + Sync>(
    rt: &R,
    alloc: Global,
    node: &Node<R, Faulty<'_>, J, NoLink, &Meeting>,
    passes: &mut [Passes<J>],
    target: &[u8],
    out: &mut FailingWriter,
) -> Option<Result<Sent, Cut>> {
    if passes.is_empty() {
        return None;
    }
    Some(node.body_one(rt, alloc, passes, target, out))
}

fn method_of(alloc: Global, verb: Verb) -> Option<Method> {
    match verb {
        Verb::Get => Some(Method::Get),
        Verb::Head => Some(Method::Head),
        Verb::Delete => Method::from_bytes(alloc, b"DELETE").ok(),
    }
}

/// How the answer to a call ends.
fn call_of<R: Threads + Wait + Clock + Sync, J: System + Send + Sync>(
    rt: &R,
    alloc: Global,
    node: &Node<R, Faulty<'_>, J, NoLink, &Meeting>,
    passes: &mut [Passes<J>],
    verb: Verb,
    target: &[u8],
    out: &mut FailingWriter,
) -> Option<Result<Sent, Cut>> {
    if passes.is_empty() {
        return None;
    }
    let call = Call {
        method: method_of(alloc, verb)?,
        target: Vec::from_slice(alloc, target).ok()?,
        close: false,
    };
    Some(node.serve_one(rt, alloc, passes, &call, out))
}

/// So many bytes, or so much of what is counted, and no answer of a status.
fn counted(bytes: usize, held: u64) -> Option<Result<Sent, Cut>> {
    Some(Ok(Sent {
        status: 0,
        bytes: bytes as u64,
        held,
    }))
}

/// Answers a connection, and tells the watch.
fn stream_of<R: Threads + Wait + Clock + Sync, J: System + Send + Sync, V: Watch<R>>(
    rt: &R,
    alloc: Global,
    node: &Node<R, Faulty<'_>, J, NoLink, &Meeting>,
    passes: &mut [Passes<J>],
    input: Input<'_>,
    out: &mut FailingWriter,
    watch: &V,
) -> Option<Result<Sent, Cut>> {
    if passes.is_empty() {
        return None;
    }
    let serving = Serving { rt, alloc, watch };
    node.serve_stream(&serving, passes, Parts::of(input), out);
    counted(out.taken.len(), 0)
}

/// Mends the source of the image `a`.
fn mend(reads: &Reads) -> Option<Result<Sent, Cut>> {
    reads.mend();
    counted(0, 0)
}

/// How many reads were made of the image `a`, as bytes.
fn read(reads: &Reads) -> Option<Result<Sent, Cut>> {
    Some(Ok(Sent {
        status: 0,
        bytes: reads.made(),
        held: 0,
    }))
}

/// How many sums a node was asked for, as bytes, and how many it loaded, as what was held.
fn booked<R: Wait, J: System>(
    rt: &R,
    node: &Node<R, Faulty<'_>, J, NoLink, &Meeting>,
) -> Option<Result<Sent, Cut>> {
    let book = node.groups().sums().book(rt);
    Some(Ok(Sent {
        status: 0,
        bytes: book.gets,
        held: book.loads,
    }))
}

/// Whether the books of a node's sums and tiles are these.
fn has_books<R: Wait, J: System>(
    rt: &R,
    node: &Node<R, Faulty<'_>, J, NoLink, &Meeting>,
    sums: Book,
    tiles: Book,
) -> bool {
    let groups = node.groups();
    is_same(
        &(groups.sums().book(rt), groups.tiles().book(rt)),
        &(sums, tiles),
    )
}

/// How an ask ends.
fn end_of<R: Threads + Wait + Clock + Sync, J: System + Send + Sync>(
    rt: &R,
    alloc: Global,
    node: &Node<R, Faulty<'_>, J, NoLink, &Meeting>,
    passes: &mut [Passes<J>],
    seen: &Seen,
    ask: Ask<'_>,
    out: &mut FailingWriter,
) -> Option<Result<Sent, Cut>> {
    match ask {
        Ask::Body(target) => body_of(rt, alloc, node, passes, target, out),
        Ask::Call(verb, target) => call_of(rt, alloc, node, passes, verb, target, out),
        Ask::Stream(input) => stream_of(rt, alloc, node, passes, input, out, &()),
        Ask::Watched(input) => stream_of(rt, alloc, node, passes, input, out, &seen.told),
        Ask::Mend => mend(&seen.reads),
        Ask::Sums => booked(rt, node),
        Ask::Books(sums, tiles) => counted(0, u64::from(has_books(rt, node, sums, tiles))),
        Ask::Reads => read(&seen.reads),
        Ask::Kept => counted(node.most_kept(rt) as usize, 0),
        Ask::Told(counts) => counted(0, u64::from(is_same(&seen.told.counts(), &counts))),
        Ask::Alone => counted(0, u64::from(seen.gate.alone.load(Ordering::SeqCst))),
    }
}

/// Whether an ask comes as it is to.
pub(crate) fn is_right<R: Threads + Wait + Clock + Sync, J: System + Send + Sync>(
    rt: &R,
    alloc: Global,
    node: &Node<R, Faulty<'_>, J, NoLink, &Meeting>,
    passes: &mut [Passes<J>],
    seen: &Seen,
    ask: Ask<'_>,
    want: Want<'_>,
) -> bool {
    let (room, piece) = want.room();
    let mut out = FailingWriter {
        taken: Vec::new(alloc),
        room,
        piece,
    };
    match end_of(rt, alloc, node, passes, seen, ask, &mut out) {
        Some(end) => want.fits(end, &out.taken),
        None => false,
    }
}
