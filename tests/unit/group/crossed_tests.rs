//! Nodes that ask each other over loopback, a node whose peer owns every key, what a node replies to each kind of ask, and how many
//! passes it gives out.

use crate::fixtures::is_same;
use crate::fixtures::messages::{CHANGED_REPLY, OTHER_TILE_REPLY, TILE_REPLY, WIDE_REPLY};
use crate::group::bars::Bar;
use crate::group::calls::{Call, LAST, Step};
use crate::group::cases::{Case, first_wrong};
use crate::group::crossings::Crossing;
use crate::group::nodes::{Owner, ROOMY, Setup};
use crate::group::peers::{LIMIT, Way};
use crate::group::runs::Stages;
use crate::group::scenes::{QUIET, Scene, Seen, played};
use iiif_keys::Fault;
use iiif_peer_wire::read_ask;
use std::alloc::Global;
use std::io::Write;
use std::net::{Net, TcpListener, TcpStream};
use std::sync::Wait;
use std::test::Fail;
use std::thread;
use std::thread::Threads;
use std::time::{Clock, Duration, Instant};

/// The work of one of two threads.
#[derive(Drop)]
enum Side<'a> {
    /// A node is set up for a scene.
    Plays(Setup<'a>, &'static Scene),
    /// One ask is taken, and these bytes are sent.
    Sends(&'a TcpListener, &'static [u8]),
}

/// Takes one ask, and sends these bytes.
fn send_once(alloc: Global, listener: &TcpListener, reply: &[u8]) {
    if let Ok((mut stream, _)) = listener.accept() {
        if let Ok(Some(_ask)) = read_ask(alloc, &mut stream) {
            let _ = stream.write_all(reply);
        }
    }
}

/// The observations of a side.
fn seen_of<R>(rt: &R, alloc: Global, side: &Side<'_>) -> Result<Seen, Fault>
where
    R: Net<Listener = TcpListener, Stream = TcpStream> + Threads + Wait + Clock + Send + Sync,
{
    match side {
        Side::Plays(setup, scene) => played(rt, alloc, setup, scene),
        Side::Sends(listener, reply) => {
            send_once(alloc, listener, reply);
            Ok(QUIET)
        }
    }
}

/// The observations of two sides at once.
fn both<R>(
    rt: &R,
    alloc: Global,
    one: &Side<'_>,
    other: &Side<'_>,
) -> (Result<Seen, Fault>, Result<Seen, Fault>)
where
    R: Net<Listener = TcpListener, Stream = TcpStream> + Threads + Wait + Clock + Send + Sync,
{
    thread::join(rt, || seen_of(rt, alloc, one), || seen_of(rt, alloc, other))
}

/// A node that asks who listens there for every key.
fn setup<'a>(peer: &'a TcpListener, gate: &'a Bar, crossing: Option<Crossing<'a>>) -> Setup<'a> {
    Setup {
        fuse: 99,
        bytes: ROOMY,
        meets: false,
        stands: false,
        way: Way::Tcp(peer),
        gate,
        crossing,
    }
}

static CROSSES: Scene = Scene::Crosses;

/// The observations of two nodes with crossed rings that are asked at once while they serve each other.
fn crossed<R>(
    rt: &R,
    alloc: Global,
    first: &TcpListener,
    second: &TcpListener,
) -> (Result<Seen, Fault>, Result<Seen, Fault>)
where
    R: Net<Listener = TcpListener, Stream = TcpStream> + Threads + Wait + Clock + Send + Sync,
{
    let (open, one, two) = (Bar::new(true), Bar::new(false), Bar::new(false));
    let near = Crossing {
        listener: first,
        done: &one,
        others: &two,
    };
    let far = Crossing {
        listener: second,
        done: &two,
        others: &one,
    };
    both(
        rt,
        alloc,
        &Side::Plays(setup(second, &open, Some(near)), &CROSSES),
        &Side::Plays(setup(first, &open, Some(far)), &CROSSES),
    )
}

/// Whether a node took values from its peer.
fn has_taken(seen: &Seen) -> bool {
    seen.books.0.peer > 0 || seen.books.1.peer > 0
}

#[test]
fn crossed_nodes_answer_rightly_at_once(rt: HostRuntime) -> Result<(), Fail> {
    let first = TcpListener::bind(&rt, "127.0.0.1:0")?;
    let second = TcpListener::bind(&rt, "127.0.0.1:0")?;
    let start = Instant::now(&rt)?;
    let (one, two) = crossed(&rt, rt.alloc(), &first, &second);
    // Before an ask runs out of time.
    let in_time = start.elapsed(&rt)? < Duration::from_millis(LIMIT);
    let (one, two) = (one?, two?);
    let has_taken = has_taken(&one) || has_taken(&two);
    let came = [in_time, one.is_right, two.is_right, has_taken];
    assert!(rt; is_same(&came, &[true; 4]), "{came:?}");
    Ok(())
}

/// The tile (1, 1) of `a`.
static TILE: Scene = Scene::Runs(Stages {
    first: &[(Step::Tile(Call::Get, (1, 1)), Ok(LAST))],
    then: &[],
    hands_in: false,
});

/// Whether a node whose peer owns every key and replies so answers a call rightly, and how many values it took from its peer.
fn replied<R>(rt: &R, alloc: Global, reply: &'static [u8]) -> Option<(bool, u64)>
where
    R: Net<Listener = TcpListener, Stream = TcpStream> + Threads + Wait + Clock + Send + Sync,
{
    let listener = TcpListener::bind(rt, "127.0.0.1:0").ok()?;
    let open = Bar::new(true);
    let peer = Side::Sends(&listener, reply);
    let node = Side::Plays(setup(&listener, &open, None), &TILE);
    let (_sent, seen) = both(rt, alloc, &peer, &node);
    let seen = seen.ok()?;
    Some((seen.is_right, seen.tiles.0.peer))
}

/// Replies of a peer, and how many of their values are taken.
static REPLIES: [(&str, &'static [u8], u64); 5] = [
    ("one with a changed byte", CHANGED_REPLY, 0),
    ("one for another tile", OTHER_TILE_REPLY, 0),
    ("one with a value of other sides", WIDE_REPLY, 0),
    ("no bytes", b"", 0),
    ("the right one", TILE_REPLY, 1),
];

#[test]
fn peer_that_lies_leads_to_the_local_load(rt: HostRuntime) {
    for (what, reply, taken) in REPLIES.iter() {
        assert!(rt;
            is_same(&replied(&rt, rt.alloc(), reply), &Some((true, *taken))),
            "{what}"
        );
    }
}

static OTHERS: [Case; 2] = [
    Case {
        what: "Each ask gets the reply of its key.",
        owner: Owner::Refuses,
        fuse: 99,
        bytes: ROOMY,
        reads_meet: false,
        asks_meet: false,
        scene: Scene::Replies,
        seen: QUIET,
    },
    Case {
        what: "65,536 passes are given out, and no more.",
        owner: Owner::Itself,
        fuse: 99,
        bytes: ROOMY,
        reads_meet: false,
        asks_meet: false,
        scene: Scene::GivesOut(65_536),
        seen: QUIET,
    },
];

#[test]
fn each_ask_gets_its_reply_and_passes_are_65536(rt: HostRuntime) {
    let wrong = first_wrong(&rt, rt.alloc(), &OTHERS);
    assert!(rt; wrong.is_empty(), "{wrong}");
}
