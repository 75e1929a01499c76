//! Nodes that ask and are asked, as a test sees them.

use crate::connections::viewers::{Sends, Text, asking, connected, is_answered, is_sent};
use crate::fixtures::messages::{TILE_ASK, TILE_REPLY};
use crate::fixtures::peers::Way;
use crate::fixtures::{is_same, is_same_text};
use iiif_peer_wire::{Version, read_ask};
use iiif_services::Listeners;
use std::io::{Read, Write};
use std::net::{TcpListener, TcpStream};
use std::thread;
use std::time::Duration;

/// The sample at half its width.
pub(crate) const HALVED: Sends<'static> = Sends {
    request: b"GET /iiif/a/full/2,/0/default.tif HTTP/1.1\r\nConnection: close\r\n\r\n",
    ends: false,
    wanted: Text::Framed(b"HTTP/1.1 200 OK\r\n", &[25, 45, 105, 125]),
};

/// Whether a node answers that rightly while another one does.
pub(crate) fn are_both_halved(rt: &HostRuntime, viewers: &TcpListener, others: &Listeners) -> bool {
    let first = asking(rt, viewers, HALVED.request, HALVED.ends);
    let second = asking(rt, &others.viewers, HALVED.request, HALVED.ends);
    let (Some(first), Some(second)) = (first, second) else {
        return false;
    };
    is_answered(rt.alloc(), first, HALVED.wanted) && is_answered(rt.alloc(), second, HALVED.wanted)
}

/// How long an ask may take in these tests, in milliseconds.
pub(crate) const LIMIT: u64 = 500;

/// The way of a peer with the only ask, the images, what a viewer sends and is sent back, how many calls enter, and how many of the peer's
/// values are taken.
#[derive(Clone, Copy)]
pub(crate) struct Asked {
    pub way: Way,
    pub images: &'static [(&'static str, &'static str)],
    pub sends: Sends<'static>,
    pub entered: u64,
    pub taken: u64,
}

/// How often it is tried to take a connection.
const TRIES: u32 = 4_000;

/// The first connection that comes to a listener, unless none comes.
fn taken(rt: &HostRuntime, listener: &TcpListener) -> Option<TcpStream> {
    listener.set_nonblocking(true).ok()?;
    for _ in 0..TRIES {
        if let Ok((stream, _)) = listener.accept() {
            return Some(stream);
        }
        thread::sleep(rt, Duration::from_millis(5));
    }
    None
}

/// Does this with an ask. Says whether it is for a tile, in the second version where the connection is closed at that. None where nothing
/// is asked: who looks whether a node is there sends nothing.
fn is_asked(rt: &HostRuntime, mut stream: TcpStream, way: Way) -> Option<bool> {
    if let Way::KnowsOneVersion = way {
        let mut magic = [0u8; 4];
        stream.read_exact(&mut magic).ok()?;
        return Some(is_same(&&magic, &b"IGA2"));
    }
    let Ok(ask) = read_ask(rt.alloc(), &mut stream) else {
        return Some(false);
    };
    let ask = ask?;
    way.answer(
        rt,
        &mut stream,
        TILE_REPLY,
        Duration::from_millis(2 * LIMIT),
    );
    Some(is_same(&ask.version.digit(), &Version::One.digit()) && is_same(&ask.group, &1))
}

/// Whether the first ask that comes to a listener is a good one. This is done with it.
fn is_asked_at(rt: &HostRuntime, listener: &TcpListener, way: Way) -> bool {
    for _ in 0..TRIES {
        let Some(stream) = taken(rt, listener) else {
            return false;
        };
        if let Some(is_good) = is_asked(rt, stream, way) {
            return is_good;
        }
    }
    false
}

/// Whether the owner is asked well for what a viewer sends, and whether that is answered as it is to be.
pub(crate) fn are_asked_and_answered(
    rt: &HostRuntime,
    owner: &TcpListener,
    viewers: &TcpListener,
    asked: &Asked,
) -> bool {
    let sends = &asked.sends;
    let Some(viewer) = asking(rt, viewers, sends.request, sends.ends) else {
        return false;
    };
    is_asked_at(rt, owner, asked.way) && is_answered(rt.alloc(), viewer, sends.wanted)
}

/// Whether the reply to the ask for the tile (1, 1) is the right one.
fn is_replied(rt: &HostRuntime, listener: &TcpListener) -> Option<bool> {
    let mut stream = connected(rt, listener)?;
    stream.write_all(TILE_ASK).ok()?;
    let mut reply = [0u8; 73];
    stream.read_exact(&mut reply).ok()?;
    Some(is_same_text(reply.as_slice(), TILE_REPLY))
}

/// Whether a node that asks for that tile is replied to rightly, and behind it a viewer is answered what is wanted.
pub(crate) fn are_replied_and_sent(
    rt: &HostRuntime,
    listeners: &Listeners,
    sends: &Sends<'_>,
) -> bool {
    let is_replied = match &listeners.peers {
        Some(peers) => is_same(&is_replied(rt, peers), &Some(true)),
        None => false,
    };
    is_sent(rt, &listeners.viewers, sends) && is_replied
}
