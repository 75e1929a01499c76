//! Connections of who visits a node, and what is sent back.

use crate::fixtures::{has_end, has_start, is_same, is_same_text};
use std::alloc::Global;
use std::fmt::Write as _;
use std::io::{Read, Write};
use std::net::{Shutdown, TcpListener, TcpStream};
use std::thread;
use std::time::Duration;

/// Wanted bytes.
#[derive(Clone, Copy)]
pub(crate) enum Text<'a> {
    /// These.
    Is(&'a [u8]),
    /// So many.
    Long(usize),
    /// The first are these, and the last are those.
    Framed(&'a [u8], &'a [u8]),
}

impl<'a> Text<'a> {
    /// Whether bytes are what they are to be.
    pub(crate) fn fits(self, bytes: &[u8]) -> bool {
        match self {
            Text::Is(wanted) => is_same_text(bytes, wanted),
            Text::Long(count) => is_same(&bytes.len(), &count),
            Text::Framed(first, last) => has_start(bytes, first) && has_end(bytes, last),
        }
    }
}

/// A listener's address and port.
pub(crate) fn address_of(alloc: Global, listener: &TcpListener) -> Option<String> {
    let mut address = String::new(alloc);
    write!(address, "{}", listener.local_addr().ok()?).ok()?;
    Some(address)
}

/// How long a test waits for an answer, in milliseconds.
const PATIENCE: u64 = 40_000;

/// A connection to a listener, on which a test waits no longer than its patience.
pub(crate) fn connected(rt: &HostRuntime, listener: &TcpListener) -> Option<TcpStream> {
    let stream = TcpStream::connect(rt, listener.local_addr().ok()?).ok()?;
    stream
        .set_read_timeout(Some(Duration::from_millis(PATIENCE)))
        .ok()?;
    Some(stream)
}

/// A request to a node, whether it is said to be the last, and the wanted answer.
#[derive(Clone, Copy)]
pub(crate) struct Sends<'a> {
    pub request: &'a [u8],
    pub ends: bool,
    pub wanted: Text<'a>,
}

/// A connection on which these bytes were sent, and perhaps said to be the last.
pub(crate) fn asking(
    rt: &HostRuntime,
    listener: &TcpListener,
    request: &[u8],
    ends: bool,
) -> Option<TcpStream> {
    let mut viewer = connected(rt, listener)?;
    viewer.write_all(request).ok()?;
    if ends {
        viewer.shutdown(Shutdown::Write).ok()?;
    }
    Some(viewer)
}

/// All that comes on a connection.
pub(crate) fn all_of(alloc: Global, mut viewer: TcpStream) -> Option<Vec<u8>> {
    let mut answer = Vec::new(alloc);
    viewer.read_to_end(&mut answer).ok()?;
    Some(answer)
}

/// All that is sent back to who sends these bytes.
pub(crate) fn sent(rt: &HostRuntime, listener: &TcpListener, request: &[u8]) -> Option<Vec<u8>> {
    all_of(rt.alloc(), asking(rt, listener, request, false)?)
}

/// Whether what comes on a connection is what it is to be.
pub(crate) fn is_answered(alloc: Global, viewer: TcpStream, wanted: Text<'_>) -> bool {
    match all_of(alloc, viewer) {
        Some(answer) => wanted.fits(&answer),
        None => false,
    }
}

/// Whether what is sent back is what it is to be.
pub(crate) fn is_sent(rt: &HostRuntime, listener: &TcpListener, sends: &Sends<'_>) -> bool {
    match asking(rt, listener, sends.request, sends.ends) {
        Some(viewer) => is_answered(rt.alloc(), viewer, sends.wanted),
        None => false,
    }
}

/// Whether a viewer is answered on a connection that stays.
pub(crate) fn is_redirected(viewer: &mut TcpStream) -> bool {
    if viewer.write_all(b"HEAD /iiif/a HTTP/1.1\r\n\r\n").is_err() {
        return false;
    }
    let mut answer = [0u8; 122];
    viewer.read_exact(&mut answer).is_ok() && answer.starts_with(b"HTTP/1.1 303")
}

/// Whether a new viewer is answered.
pub(crate) fn is_let_in(rt: &HostRuntime, listener: &TcpListener) -> Option<bool> {
    let mut viewer = connected(rt, listener)?;
    Some(is_redirected(&mut viewer))
}

/// How many of 64 viewers are answered that stay open here.
pub(crate) fn answered_of_64(
    rt: &HostRuntime,
    listener: &TcpListener,
    open: &mut Vec<TcpStream>,
) -> Option<u32> {
    let mut served = 0u32;
    for _ in 0..64u32 {
        let mut viewer = connected(rt, listener)?;
        if !is_redirected(&mut viewer) {
            return Some(served);
        }
        served = served.saturating_add(1);
        open.push(viewer).ok()?;
    }
    Some(served)
}

/// Whether the beginning of a further request is sent on each connection, and was read, but on a machine that is busy beyond reason.
fn all_begin(rt: &HostRuntime, open: &mut Vec<TcpStream>) -> bool {
    for viewer in open.iter_mut() {
        if viewer.write_all(b"H").is_err() {
            return false;
        }
    }
    thread::sleep(rt, Duration::from_millis(1000));
    true
}

/// Whether 64 viewers are answered that stay and begin to ask again, and one more isn't.
pub(crate) fn is_full(rt: &HostRuntime, listener: &TcpListener, open: &mut Vec<TcpStream>) -> bool {
    is_same(&answered_of_64(rt, listener, open), &Some(64))
        && all_begin(rt, open)
        && is_same(&is_let_in(rt, listener), &Some(false))
}

/// Whether a connection is closed.
fn is_closed(viewer: &mut TcpStream) -> bool {
    let mut byte = [0u8; 1];
    viewer
        .read(&mut byte)
        .is_ok_and(|count| is_same(&count, &0))
}

/// Whether 64 viewers are answered that stay, and one more is answered, for whom the first one's connection is closed and the last one's
/// isn't.
pub(crate) fn give_way(rt: &HostRuntime, listener: &TcpListener) -> bool {
    let mut open = Vec::new(rt.alloc());
    if answered_of_64(rt, listener, &mut open) != Some(64)
        || is_let_in(rt, listener) != Some(true)
    {
        return false;
    }
    match open.as_mut_slice() {
        [first, .., last] => is_closed(first) && is_redirected(last),
        _ => false,
    }
}
