//! A viewer that drips, one that is silent, one that asks again and again, and one that sends more than is read.

use crate::fixtures::is_same;
use crate::wire::echo::connected;
use iiif_io::{Inlet, Outlet};
use iiif_listener::{
    Flow, Generation, Generations, OpenConnections, Pace, PacedReader, PacedWriter, Places, PrimedMemory, Rate, Visit, close,
};
use std::alloc::Global;
use std::io::{Read, Write};
use std::net::{IpAddr, Ipv4Addr, Net, TcpListener, TcpStream};
use std::sync::Wait;
use std::thread;
use std::thread::Threads;
use std::time::{Clock, Duration};

/// So many connections.
fn connections_of(count: u32) -> OpenConnections {
    let connections = OpenConnections::new();
    for _ in 0..count {
        connections.enter();
    }
    connections
}

/// How many single bytes are read before the time is over, each answered where `answers` is set, of one of so many connections.
fn read_drops<R: Clock + Wait>(
    rt: &R,
    alloc: Global,
    visit: Visit<'_, R>,
    answers: bool,
    open: u32,
) -> Option<u32> {
    let Visit { stream, place } = visit;
    let connections = connections_of(open);
    let Ok(generations) = Generations::new(rt) else {
        return None;
    };
    let Ok(pace) = Pace::new(rt, Duration::from_millis(500)) else {
        return None;
    };
    let Ok(answering) = stream.try_clone() else {
        return None;
    };
    let mut out = PacedWriter {
        stream: answering,
        rt,
        pace: &pace,
        place: &place,
        generation: Generation {
            all: &generations,
            number: 0,
        },
        patience: Duration::from_millis(1_000),
        flow: Flow::new(Rate {
            bytes: 4_096,
            period: 30_000,
        }),
    };
    let mut reader = PacedReader {
        stream,
        rt,
        pace: &pace,
        idle: Duration::from_millis(400),
        place: &place,
        connections: &connections,
        warm: PrimedMemory::new(alloc),
        generation: Generation {
            all: &generations,
            number: 0,
        },
        reads_ahead: true,
        is_clear: true,
    };
    Some(count_drops(&mut reader, &mut out, answers))
}

/// Serves a reader and a writer that are there. An answer is a text and one behind it, of a size that is made room for.
fn count_drops<I: Inlet, W: Outlet>(reader: &mut I, out: &mut W, answers: bool) -> u32 {
    let mut byte = [0u8; 1];
    let mut drops = 0u32;
    for _ in 0..20u32 {
        match reader.pull(&mut byte) {
            Ok(1) => drops = drops.saturating_add(1),
            _ => return drops,
        }
        if answers && out.put_both(b"+", &[b'-'; 3000]).is_err() {
            return drops;
        }
    }
    drops
}

/// Sends twenty bytes, one each `pause` milliseconds.
fn drip<R: Clock>(rt: &R, viewer: &mut TcpStream, pause: u64) {
    for _ in 0..20u32 {
        if viewer.write_all(b"G").is_err() {
            return;
        }
        thread::sleep(rt, Duration::from_millis(pause));
    }
}

/// Answers without reading, and closes.
fn answer_unread<R: Clock + Wait>(rt: &R, visit: Visit<'_, R>) {
    let Visit { mut stream, place } = visit;
    if stream.write_all(b"answer").is_ok() {
        close(rt, &place, stream);
    }
}

/// Sends more than is read, and gives what was answered.
fn ask_much(viewer: &mut TcpStream) -> Option<(usize, [u8; 8])> {
    if viewer.write_all(&[b'G'; 50_000]).is_err() {
        return None;
    }
    let mut answer = [0u8; 8];
    let mut came = 0usize;
    for _ in 0..9u32 {
        if came > 8 {
            return None;
        }
        match viewer.read(&mut answer[came..]) {
            Ok(0) => return Some((came, answer)),
            Ok(n) => came = came.saturating_add(n),
            Err(_) => return None,
        }
    }
    None
}

/// The conduct of a viewer.
#[derive(Clone, Copy)]
enum Viewer {
    /// It sends single bytes with a pause between them, in milliseconds, each of which is answered or not, where so many connections
    /// are open.
    Drips(u64, bool, u32),
    /// It asks for more than is read.
    AsksMuch,
}

/// The observations at both ends: how many single bytes were read, and what was answered.
type Seen = (Option<u32>, Option<(usize, [u8; 8])>);

/// How many single bytes of a viewer are read, where it drips.
fn serve<R: Clock + Wait + AllocGlobal>(rt: &R, stream: TcpStream, viewer: Viewer) -> Option<u32> {
    let places = Places::new(rt.alloc(), 0).ok()?;
    let visit = places.enter(rt, stream, IpAddr::V4(Ipv4Addr::LOCALHOST), 0)?;
    match viewer {
        Viewer::Drips(_, answers, open) => read_drops(rt, rt.alloc(), visit, answers, open),
        Viewer::AsksMuch => {
            answer_unread(rt, visit);
            None
        }
    }
}

/// The answer to a viewer that asks for much.
fn view<R: Clock>(rt: &R, stream: &mut TcpStream, viewer: Viewer) -> Option<(usize, [u8; 8])> {
    match viewer {
        Viewer::Drips(pause, _, _) => {
            drip(rt, stream, pause);
            None
        }
        Viewer::AsksMuch => ask_much(stream),
    }
}

/// The observations of a viewer at both ends of a connection.
fn seen_at<
    R: Net<Listener = TcpListener, Stream = TcpStream>
        + Threads
        + Wait
        + Clock
        + Sync
        + AllocGlobal,
>(rt: &R, viewer: Viewer, near: &mut TcpStream, far: TcpStream) -> Seen {
    thread::join(rt, || serve(rt, far, viewer), || view(rt, near, viewer))
}

/// The observations of a viewer that connects.
fn seen_of<
    R: Net<Listener = TcpListener, Stream = TcpStream>
        + Threads
        + Wait
        + Clock
        + Sync
        + AllocGlobal,
>(rt: &R, viewer: Viewer) -> Seen {
    match connected(rt) {
        Some((mut near, far)) => seen_at(rt, viewer, &mut near, far),
        None => (None, None),
    }
}

/// The conduct of viewers, and at least and at most how many bytes are read.
static VIEWERS: [(Viewer, u32, u32); 5] = [
    (Viewer::Drips(100, false, 1), 1, 8),
    (Viewer::Drips(100, true, 1), 20, 20),
    (Viewer::Drips(900, true, 1), 1, 1),
    (Viewer::Drips(0, true, 1), 20, 20),
    (Viewer::Drips(900, true, 2), 1, 1),
];

#[test]
fn dripping_and_silent_viewers_are_left_and_an_asking_one_is_not(rt: HostRuntime) {
    for (viewer, least, most) in VIEWERS.iter() {
        let (drops, _) = seen_of(&rt, *viewer);
        let drops = drops.unwrap_or(0);
        assert!(rt; *least <= drops && drops <= *most, "{drops}");
    }
}

#[test]
fn a_connection_is_alone_where_no_other_is_open(rt: HostRuntime) {
    let connections = connections_of(1);
    assert!(rt; connections.is_alone() && !connections_of(0).is_alone() && !connections_of(2).is_alone());
    connections.leave();
    assert!(rt; !connections.is_alone());
}

#[test]
fn answer_arrives_though_input_was_left(rt: HostRuntime) {
    let seen = seen_of(&rt, Viewer::AsksMuch);
    assert!(rt;
        is_same(&seen, &(None, Some((6, *b"answer\0\0")))),
        "{seen:?}"
    );
}
