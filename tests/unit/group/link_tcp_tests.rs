//! Other nodes over loopback: right, dead, slow, dripping, lying, and one that knows no second version; and no node.

use crate::fixtures::messages::{DEEP_REPLY, DEEP_VALUE};
use crate::fixtures::peers::Way;
use crate::fixtures::{has_end, is_same, is_same_text, is_unwanted};
use crate::group::acts::{Act, two};
use crate::group::keys::{DEEP_REPLY_ONE, OTHER_REPLY, SHORT_VALUE_REPLY, UNKNOWN_REPLY, tile};
use iiif_breaker::{Asks, State};
use iiif_group::{Link, LinkFault, NoLink};
use iiif_keys::{CacheKey, Shape, System, TileKey};
use iiif_log::{Log, write_lines};
use iiif_peer_link::{Deadline, Peer, Reaches, Stopwatch, TcpLink};
use iiif_peer_wire::{Version, WireFault, read_ask};
use iiif_pixel::{Depth, Dim, Kind};
use std::alloc::Global;
use std::io::{ErrorKind, Read, Write};
use std::net::{Net, SocketAddr, TcpListener, TcpStream};
use std::sync::Wait;
use std::test::Fail;
use std::thread::Threads;
use std::time::{Clock, Duration, Instant};
use std::{str, thread};

/// Each name has the picture of two gray places of 16 bits, and no node is relied on.
struct Deep;

impl System for Deep {
    ghost pictures = { λ _. Some (record { width = 2; height = 1; channels = 1; top = 65535; samples = 0 ∷ 65535 ∷ [] }) };

    ghost edge = { 2 };

    ghost gave = { λ _ _. true };

    ghost stable = { λ _. ⊥ };

    ghost honest = { false };

    ghost tiles_name = { 0 };

    ghost tiles_parts = { all_parts };

    ghost sums_name = { 1 };

    ghost sums_parts = { all_parts };
}

/// The shape of that picture, whichever name it has.
fn shape_for(key: &TileKey) -> Shape {
    let _edge = key.edge;
    Shape {
        dim: Dim { w: 2, h: 1 },
        kind: Kind::Gray,
        depth: Depth::Sixteen,
    }
}

/// How long an ask may take.
const LIMIT: u64 = 400;

/// Answers an ask that came whole. Says whether it was of the second version, for a tile.
fn answer<R: Clock>(rt: &R, alloc: Global, stream: &mut TcpStream, way: &Way) -> bool {
    let Ok(Some(ask)) = read_ask(alloc, stream) else {
        return false;
    };
    way.answer(rt, stream, DEEP_REPLY, Duration::from_millis(2 * LIMIT));
    is_same(&ask.version.digit(), &Version::Two.digit()) && is_same(&ask.group, &1)
}

/// A node that takes one connection and answers in this way.
#[derive(Drop)]
struct Taker<'a> {
    alloc: Global,
    listener: &'a TcpListener,
    way: &'a Way,
}

impl<'a, R: Clock> Act<R> for Taker<'a> {
    type Came = bool;

    /// Whether it was asked in the second version for a tile.
    fn act(&self, rt: &R) -> bool {
        let Ok((mut stream, _)) = self.listener.accept() else {
            return false;
        };
        if let Way::KnowsOneVersion = self.way {
            let mut magic = [0u8; 4];
            return stream.read_exact(&mut magic).is_ok() && is_same(&&magic, &b"IGA2");
        }
        answer(rt, self.alloc, &mut stream, self.way)
    }
}

/// A link to a node.
fn link_to<'p, R: Reaches>(
    alloc: Global,
    peer: &'p Peer,
    watch: &'p Stopwatch,
    log: Option<&'p Log>,
) -> TcpLink<'p, Deep, R> {
    TcpLink::new(alloc, peer, watch, log)
}

/// A node at an address that wasn't looked up.
fn node_at(alloc: Global, address: &str) -> Option<Peer> {
    Peer::new(alloc, "node two", address, Duration::from_millis(LIMIT)).ok()
}

/// A listener, and the node there, which wasn't looked up.
fn listening<R>(rt: &R, alloc: Global) -> Option<(TcpListener, Peer)>
where
    R: Net<Listener = TcpListener, Stream = TcpStream>,
{
    let listener = TcpListener::bind(rt, "127.0.0.1:0").ok()?;
    let address = format!(in alloc; "{}", listener.local_addr().ok()?).ok()?;
    let node = node_at(alloc, address.as_str())?;
    Some((listener, node))
}

/// Whether what a link gave is the tile, or the fault; and whether it came in time.
type Came = (Result<bool, LinkFault>, bool);

/// An asker over a link.
#[derive(Drop)]
struct Asker<'a, N> {
    alloc: Global,
    link: &'a N,
}

impl<'a, R: Clock, N: Link<TileKey, Deep, R>> Act<R> for Asker<'a, N> {
    type Came = Option<Came>;

    /// Asks over the link. None where it isn't asked.
    fn act(&self, rt: &R) -> Option<Came> {
        let key = tile(self.alloc, "g", (0, 0)).ok()?;
        let shape = shape_for(&key);
        if !key.fits(2, &shape) {
            return None;
        }
        let start = Instant::now(rt).ok()?;
        let value = self.link.ask(rt, &key, &shape);
        let in_time = start.elapsed(rt).ok()? <= Duration::from_millis(3 * LIMIT);
        match value {
            Ok(value) => {
                let bytes = TileKey::value_bytes(self.alloc, &value).ok()?;
                Some((Ok(is_same_text(bytes.as_slice(), DEEP_VALUE)), in_time))
            }
            Err(fault) => Some((Err(fault), in_time)),
        }
    }
}

/// Asks over a link whose node answers in this way; tells also whether the node was well asked.
fn answered<R>(rt: &R, alloc: Global, way: &Way) -> Option<(Came, bool)>
where
    R: Net<Listener = TcpListener, Stream = TcpStream> + Threads + Wait + Clock + Sync,
{
    let (listener, node) = listening(rt, alloc)?;
    node.look_up(rt, alloc);
    let watch = Stopwatch::new();
    let link = link_to(alloc, &node, &watch, None);
    let taker = Taker {
        alloc,
        listener: &listener,
        way,
    };
    let asker = Asker { alloc, link: &link };
    let (well_asked, came) = two(rt, &taker, &asker);
    Some((came?, well_asked))
}

/// An answer of a node, and the tile, or the fault that comes of it, or another.
static ANSWERS: [(&str, Way, Result<bool, LinkFault>, Result<bool, LinkFault>); 9] = [
    (
        "knows one version",
        Way::KnowsOneVersion,
        Err(LinkFault::Wire(WireFault::Io)),
        Err(LinkFault::Wire(WireFault::Short)),
    ),
    (
        "closes",
        Way::Closes,
        Err(LinkFault::Wire(WireFault::Short)),
        Err(LinkFault::Wire(WireFault::Short)),
    ),
    (
        "is silent",
        Way::IsSilent,
        Err(LinkFault::Wire(WireFault::Io)),
        Err(LinkFault::Wire(WireFault::Io)),
    ),
    (
        "drips",
        Way::Drips,
        Err(LinkFault::Wire(WireFault::Io)),
        Err(LinkFault::Wire(WireFault::Io)),
    ),
    (
        "replies in version 1",
        Way::Sends(DEEP_REPLY_ONE),
        Err(LinkFault::Wire(WireFault::Magic)),
        Err(LinkFault::Wire(WireFault::Magic)),
    ),
    (
        "replies for another tile",
        Way::Sends(OTHER_REPLY),
        Err(LinkFault::Wire(WireFault::Key)),
        Err(LinkFault::Wire(WireFault::Key)),
    ),
    (
        "replies with a value that ends too soon",
        Way::Sends(SHORT_VALUE_REPLY),
        Err(LinkFault::Value),
        Err(LinkFault::Value),
    ),
    (
        "refuses",
        Way::Sends(UNKNOWN_REPLY),
        Err(LinkFault::Refused(3)),
        Err(LinkFault::Refused(3)),
    ),
    (
        "replies rightly",
        Way::Sends(DEEP_REPLY),
        Ok(true),
        Ok(true),
    ),
];

/// Whether that comes of it, in time, and the node was well asked.
fn is_answered<R>(
    rt: &R,
    alloc: Global,
    way: &Way,
    wanted: Result<bool, LinkFault>,
    other: Result<bool, LinkFault>,
) -> bool
where
    R: Net<Listener = TcpListener, Stream = TcpStream> + Threads + Wait + Clock + Sync,
{
    match answered(rt, alloc, way) {
        Some(((value, true), true)) if value == other => true,
        came => is_same(&came, &Some(((wanted, true), true))),
    }
}

#[test]
fn right_reply_is_the_tile_and_each_failure_a_fault_in_time(rt: HostRuntime) {
    for (what, way, wanted, other) in ANSWERS.iter() {
        assert!(rt;
            is_answered(&rt, rt.alloc(), way, *wanted, *other),
            "{what}"
        );
    }
}

/// A fault of the connection, in time.
const LOST: Option<Came> = Some((Err(LinkFault::Wire(WireFault::Io)), true));

/// Whether an ask of a node comes to that.
fn is_lost<R>(rt: &R, alloc: Global, node: Peer) -> bool
where
    R: Net<Listener = TcpListener, Stream = TcpStream> + Threads + Wait + Clock + Sync,
{
    node.look_up(rt, alloc);
    let watch = Stopwatch::new();
    let link = link_to(alloc, &node, &watch, None);
    let asker = Asker { alloc, link: &link };
    is_same(&asker.act(rt), &LOST)
}

#[test]
fn dead_node_is_a_fault_of_the_connection(rt: HostRuntime) -> Result<(), Fail> {
    let alloc = rt.alloc();
    let (listener, dead) = listening(&rt, alloc).ok_or("no listener")?;
    drop(listener);
    let nowhere = node_at(alloc, "no port").ok_or("no memory")?;
    assert!(rt; is_lost(&rt, alloc, dead));
    assert!(rt; is_lost(&rt, alloc, nowhere));
    Ok(())
}

/// The lines of the log about a node that was left alone and then answered.
const TURNS: (&str, &str) = (
    " peer node\\x20two left-alone\n",
    " peer node\\x20two asked-again\n",
);

/// Whether the log of a link says that.
fn are_turns(log: &[u8]) -> bool {
    match str::from_utf8(log) {
        Ok(text) => text.contains(TURNS.0) && text.ends_with(TURNS.1),
        Err(fault) => is_unwanted(&fault),
    }
}

/// The text of a log.
fn written<R: Wait + Clock>(rt: &R, alloc: Global, log: &Log) -> Vec<u8> {
    let mut lines = Vec::new(alloc);
    log.close(rt);
    write_lines(rt, alloc, log, &mut lines);
    lines
}

/// Asks over a link to a node whose name isn't known, four times, and a second later once more, where the node is looked up and answers.
fn is_left_alone_and_tried<R>(
    rt: &R,
    alloc: Global,
    listener: &TcpListener,
    link: &TcpLink<'_, Deep, R>,
) -> bool
where
    R: Net<Listener = TcpListener, Stream = TcpStream> + Threads + Wait + Clock + Sync,
{
    let asker = Asker { alloc, link };
    for _ in 0..4u32 {
        if !is_same(&asker.act(rt), &LOST) {
            return false;
        }
    }
    thread::sleep(rt, Duration::from_millis(1_100));
    let way = Way::Sends(DEEP_REPLY);
    let taker = Taker {
        alloc,
        listener,
        way: &way,
    };
    is_same(&two(rt, &taker, &asker), &(true, Some((Ok(true), true))))
}

/// The asks of a link by their ends: answered, refused, failed, timed out, and not made since the link was left alone.
fn ends_of(asks: &Asks) -> [u64; 5] {
    [
        asks.answered,
        asks.refused,
        asks.failed,
        asks.timed_out,
        asks.skipped,
    ]
}

#[test]
fn node_that_fails_is_left_alone_and_looked_up_by_the_ask_that_tries_it(
    rt: HostRuntime,
) -> Result<(), Fail> {
    let alloc = rt.alloc();
    let (listener, node) = listening(&rt, alloc).ok_or("no listener")?;
    let (watch, log) = (Stopwatch::new(), Log::new(alloc)?);
    let link = link_to(alloc, &node, &watch, Some(&log));
    assert!(rt; is_left_alone_and_tried(&rt, alloc, &listener, &link));
    assert!(rt; is_same(&ends_of(&node.health().asks(&rt)), &[1, 0, 3, 0, 1]));
    assert!(rt; is_same(&watch.durations(&rt).all, &4));
    assert!(rt; are_turns(&written(&rt, alloc, &log)));
    Ok(())
}

/// A listener that takes a connection, and ends it once the other side does.
#[derive(Drop)]
struct Ender<'a> {
    listener: &'a TcpListener,
}

impl<'a, R: Clock> Act<R> for Ender<'a> {
    type Came = bool;

    /// Whether it ended before its first byte.
    fn act(&self, _rt: &R) -> bool {
        let mut byte = [0u8; 1];
        match self.listener.accept() {
            Ok((mut stream, _)) => matches!(stream.read(&mut byte), Ok(0)),
            Err(fault) => is_unwanted(&fault),
        }
    }
}

/// A health check of a node.
#[derive(Drop)]
struct Looker<'a> {
    alloc: Global,
    node: &'a Peer,
    log: &'a Log,
    /// Where whoever looks answers nodes itself, if anywhere.
    own: Option<SocketAddr>,
}

impl<'a, R: Net<Stream = TcpStream> + Clock + Wait> Act<R> for Looker<'a> {
    type Came = State;

    /// Whether the node is asked then.
    fn act(&self, rt: &R) -> State {
        self.node.look(rt, self.alloc, Some(self.log), self.own.as_ref());
        self.node.health().state(rt)
    }
}

/// No fault came.
const ASKED: State = State::Closed { faults: 0 };

/// Looks at a node that was never there, is there, is silent, and is there: whether it is asked, is, isn't, and isn't, for no ask answered.
fn is_looked_at<R>(rt: &R, listener: &TcpListener, looker: &Looker<'_>) -> bool
where
    R: Net<Listener = TcpListener, Stream = TcpStream> + Threads + Wait + Clock + Sync,
{
    let ender = Ender { listener };
    if looker.act(rt) != ASKED || listener.accept().is_err() {
        return false;
    }
    if two(rt, &ender, looker) != (true, ASKED) {
        return false;
    }
    if !matches!(looker.act(rt), State::Open { wait: 1_000, .. }) || listener.accept().is_err() {
        return false;
    }
    matches!(
        two(rt, &ender, looker),
        (true, State::Open { wait: 1_000, .. })
    )
}

#[test]
fn node_that_hangs_is_found_silent_by_a_look(rt: HostRuntime) -> Result<(), Fail> {
    let alloc = rt.alloc();
    let (listener, node) = listening(&rt, alloc).ok_or("no listener")?;
    node.look_up(&rt, alloc);
    let log = Log::new(alloc)?;
    let looker = Looker {
        alloc,
        node: &node,
        log: &log,
        own: None,
    };
    assert!(rt; is_looked_at(&rt, &listener, &looker));
    assert!(rt; is_same(&ends_of(&node.health().asks(&rt)), &[0; 5]));
    let written = written(&rt, alloc, &log);
    let text = str::from_utf8(&written)?;
    assert!(rt; has_end(text.as_bytes(), TURNS.0.as_bytes()) && is_same(&text.lines().count(), &1));
    Ok(())
}

#[test]
fn node_that_a_look_finds_to_be_the_own_one_is_told_once_and_not_asked(
    rt: HostRuntime,
) -> Result<(), Fail> {
    let alloc = rt.alloc();
    let (listener, node) = listening(&rt, alloc).ok_or("no listener")?;
    node.look_up(&rt, alloc);
    let (watch, log) = (Stopwatch::new(), Log::new(alloc)?);
    let looker = Looker {
        alloc,
        node: &node,
        log: &log,
        own: Some(listener.local_addr()?),
    };
    let ender = Ender {
        listener: &listener,
    };
    for _ in 0..2u32 {
        assert!(rt; two(&rt, &ender, &looker) == (true, ASKED));
    }
    assert!(rt; node.health().is_itself(&rt));
    let link = link_to(alloc, &node, &watch, Some(&log));
    assert!(rt; is_same(&Asker { alloc, link: &link }.act(&rt), &LOST));
    assert!(rt; is_same(&ends_of(&node.health().asks(&rt)), &[0; 5]));
    let written = written(&rt, alloc, &log);
    let text = str::from_utf8(&written)?;
    let is_told = has_end(text.as_bytes(), b" peer node\\x20two itself\n");
    assert!(rt; is_told && is_same(&text.lines().count(), &1));
    Ok(())
}

#[test]
fn image_that_a_node_refuses_is_told_once_and_not_asked_for(rt: HostRuntime) -> Result<(), Fail> {
    let alloc = rt.alloc();
    let (listener, node) = listening(&rt, alloc).ok_or("no listener")?;
    node.look_up(&rt, alloc);
    let (watch, log) = (Stopwatch::new(), Log::new(alloc)?);
    let link = link_to(alloc, &node, &watch, Some(&log));
    let way = Way::Sends(UNKNOWN_REPLY);
    let taker = Taker {
        alloc,
        listener: &listener,
        way: &way,
    };
    let asker = Asker { alloc, link: &link };
    let refused = Some((Err(LinkFault::Refused(3)), true));
    assert!(rt; is_same(&two(&rt, &taker, &asker), &(true, refused)));
    assert!(rt; is_same(&asker.act(&rt), &LOST));
    assert!(rt; is_same(&node.refusals().count(&rt), &1));
    assert!(rt; is_same(&ends_of(&node.health().asks(&rt)), &[0, 1, 0, 0, 0]));
    let written = written(&rt, alloc, &log);
    let text = str::from_utf8(&written)?;
    let is_told = has_end(text.as_bytes(), b" refused-image node\\x20two g\n");
    assert!(rt; is_told && is_same(&text.lines().count(), &1));
    Ok(())
}

#[test]
fn no_link_refuses_with_status_3(rt: HostRuntime) {
    let alloc = rt.alloc();
    let came = Asker {
        alloc,
        link: &NoLink,
    }
    .act(&rt);
    assert!(rt;
        matches!(came, Some((Err(LinkFault::Refused(3)), _))),
        "{came:?}"
    );
}

#[test]
fn deadline_runs_out(rt: HostRuntime) -> Result<(), Fail> {
    let deadline = Deadline::new(&rt, Duration::from_millis(50))?;
    let same = deadline.again();
    assert!(rt; deadline.left()? <= Duration::from_millis(50));
    thread::sleep(&rt, Duration::from_millis(60));
    match same.left() {
        Ok(_) => Err("time is left".into()),
        Err(error) => {
            assert!(rt; is_same(&error.kind(), &ErrorKind::TimedOut));
            Ok(())
        }
    }
}
