//! Nodes that ask each other, and nodes whose peers lie, drip, are silent or gone.

use crate::connections::nodes::{Counts, SAMPLE, Scene, Stage, are_known, serve_told, watcher_of};
use crate::connections::peers::{Asked, HALVED, LIMIT};
use crate::connections::pipe::new_pipe;
use crate::connections::viewers::{Sends, Text, address_of};
use crate::connections::visits::{ANY, Visit, listeners_of, served, visited};
use crate::fixtures::files::DEEP_HIGH_FIRST;
use crate::fixtures::is_same;
use crate::fixtures::messages::{
    CHANGED_FIRST_TILE_REPLY, CHANGED_REPLY, FIRST_TILE_KEY, FIRST_TILE_REPLY, OTHER_TILE_REPLY,
    TILE_REPLY, WIDE_REPLY,
};
use crate::fixtures::peers::Way;
use iiif_connections::Times;
use iiif_connections::times::USUAL;
use iiif_listener::stop;
use iiif_open_files::Opens;
use iiif_peer_wire::{Version, WireFault, read_reply};
use iiif_services::Listeners;
use std::alloc::Global;
use std::net::{Net, TcpListener, TcpStream};
use std::sync::Wait;
use std::test::Fail;
use std::thread::Threads;
use std::time::Clock;
use std::{fs, thread};

/// Serves by two nodes while both are asked: what they counted, and whether both answered rightly.
fn both_served<R>(
    rt: &R,
    host: &HostRuntime,
    scenes: (&Scene<'_, '_>, &Scene<'_, '_>),
    stages: (Stage<'_>, Stage<'_>),
) -> (Option<Counts>, (Option<Counts>, bool))
where
    R: Opens
        + Net<Listener = TcpListener, Stream = TcpStream>
        + Threads
        + Wait
        + Clock
        + Sync
        + AllocGlobal,
    R::Handle: Send + Sync,
{
    let (first, second) = scenes;
    let (at_first, at_second) = stages;
    let asks = Visit::Both(at_first.listeners);
    thread::join(
        rt,
        || serve_told(rt, first, at_first),
        || visited(rt, host, second, at_second, asks),
    )
}

/// The address at which other nodes ask.
fn peer_address(alloc: Global, listeners: &Listeners) -> Option<String> {
    match &listeners.peers {
        Some(peers) => address_of(alloc, peers),
        None => None,
    }
}

/// How many values two nodes of these listeners took from each other, for each of which the other one is the owner of each key, where
/// both answer rightly at once.
fn taken_between<R>(
    rt: &R,
    host: &HostRuntime,
    all: (&Listeners, &Listeners),
    addresses: (&str, &str),
) -> Option<u64>
where
    R: Opens
        + Net<Listener = TcpListener, Stream = TcpStream>
        + Threads
        + Wait
        + Clock
        + Sync
        + AllocGlobal,
    R::Handle: Send + Sync,
{
    let pipe = new_pipe(rt.alloc(), true);
    let first = Scene {
        owner: Some(addresses.1),
        ..SAMPLE
    };
    let second = Scene {
        owner: Some(addresses.0),
        ..SAMPLE
    };
    let watcher = watcher_of(rt.alloc(), &first)?;
    let other = watcher_of(rt.alloc(), &second)?;
    let at_first = Stage {
        watcher: &watcher,
        listeners: all.0,
        pipe: &pipe,
    };
    let at_second = Stage {
        watcher: &other,
        listeners: all.1,
        ..at_first
    };
    match both_served(rt, host, (&first, &second), (at_first, at_second)) {
        (Some(one), (Some(two), true)) => Some(one.peer.saturating_add(two.peer)),
        _ => None,
    }
}

/// Counts them for any listeners.
fn taken_by_both<R>(rt: &R, host: &HostRuntime) -> Option<u64>
where
    R: Opens
        + Net<Listener = TcpListener, Stream = TcpStream>
        + Threads
        + Wait
        + Clock
        + Sync
        + AllocGlobal,
    R::Handle: Send + Sync,
{
    let first = listeners_of(host, None)?;
    let second = listeners_of(host, None)?;
    let to_first = peer_address(rt.alloc(), &first)?;
    let to_second = peer_address(rt.alloc(), &second)?;
    taken_between(rt, host, (&first, &second), (&to_first, &to_second))
}

#[test]
fn nodes_that_hold_each_other_for_the_owner_answer_rightly_at_once(rt: HostRuntime) {
    let taken = taken_by_both(&rt, &rt);
    assert!(rt; taken.unwrap_or(0) > 0, "{taken:?}");
}

/// The tile (1, 1) of the sample as an image.
const CORNER: Sends<'static> = Sends {
    request: b"GET /iiif/a/2,2,2,2/max/0/default.tif HTTP/1.1\r\nConnection: close\r\n\r\n",
    ends: false,
    wanted: Text::Framed(b"HTTP/1.1 200 OK\r\n", &[100, 110, 140, 150]),
};

/// The tile (1, 1) of the sample is asked for. Where no value of the peer is taken, the call enters once more, to load by itself.
const OF_CORNER: Asked = Asked {
    way: Way::Closes,
    images: &[("a", ":sample")],
    sends: CORNER,
    entered: 2,
    taken: 0,
};

/// A peer whose value is right.
const OF_RIGHT: Asked = Asked {
    way: Way::Sends(TILE_REPLY),
    entered: 1,
    taken: 1,
    ..OF_CORNER
};

/// A peer that closes on the second version, in which samples of 16 bits are asked for.
const OF_DEEP: Asked = Asked {
    way: Way::KnowsOneVersion,
    images: &[("g", "sixteen.tif")],
    sends: Sends {
        request: b"GET /iiif/g/full/max/0/default.tif HTTP/1.1\r\nConnection: close\r\n\r\n",
        ends: false,
        wanted: Text::Framed(b"HTTP/1.1 200 OK\r\n", &[0, 0, 0xff, 0xff]),
    },
    entered: 2,
    taken: 0,
};

/// Peers of each kind.
static WAYS: [Asked; 8] = [
    Asked {
        way: Way::Sends(CHANGED_REPLY),
        ..OF_CORNER
    },
    Asked {
        way: Way::Sends(OTHER_TILE_REPLY),
        ..OF_CORNER
    },
    Asked {
        way: Way::Sends(WIDE_REPLY),
        ..OF_CORNER
    },
    OF_CORNER,
    Asked {
        way: Way::IsSilent,
        ..OF_CORNER
    },
    Asked {
        way: Way::Drips,
        ..OF_CORNER
    },
    OF_RIGHT,
    OF_DEEP,
];

/// The counts of a node whose peer owns every key and does so with the only ask, where it asked well and answered what is wanted.
fn beside_owner<R>(rt: &R, host: &HostRuntime, asked: &Asked) -> Option<Counts>
where
    R: Opens
        + Net<Listener = TcpListener, Stream = TcpStream>
        + Threads
        + Wait
        + Clock
        + Sync
        + AllocGlobal,
    R::Handle: Send + Sync,
{
    let owner = TcpListener::bind(host, ANY).ok()?;
    let address = address_of(rt.alloc(), &owner)?;
    let scene = Scene {
        images: asked.images,
        owner: Some(address.as_str()),
        times: Times {
            ask: LIMIT,
            ..USUAL
        },
        ..SAMPLE
    };
    served(rt, host, &scene, Visit::Owner(asked, &owner))
}

#[test]
fn peer_of_any_kind_leaves_the_answer_right(rt: HostRuntime) -> Result<(), Fail> {
    fs::write(&rt, "sixteen.tif", &DEEP_HIGH_FIRST)?;
    for asked in &WAYS {
        let counts = beside_owner(&rt, &rt, asked);
        let known = [Some(asked.entered), None, None, Some(asked.taken)];
        assert!(rt; are_known(counts, &known), "{:?}: {counts:?}", asked.way);
    }
    Ok(())
}

/// The tile (0, 0) of the sample as an image.
const FIRST_TILE: Sends<'static> = Sends {
    request: b"GET /iiif/a/0,0,2,2/max/0/default.tif HTTP/1.1\r\nConnection: close\r\n\r\n",
    ends: false,
    wanted: Text::Framed(b"HTTP/1.1 200 OK\r\n", &[0, 10, 40, 50]),
};

/// Replies of a peer to the ask for this tile, the fault of its reply, how many calls enter, and how many of its values are taken. After
/// a fault the call enters once more, to load by itself.
static FIRST_TILE_REPLIES: [(&str, &'static [u8], Option<WireFault>, u64, u64); 3] = [
    (
        "a changed byte",
        CHANGED_FIRST_TILE_REPLY,
        Some(WireFault::Digest),
        2,
        0,
    ),
    ("another key", TILE_REPLY, Some(WireFault::Key), 2, 0),
    ("the right one", FIRST_TILE_REPLY, None, 1, 1),
];

/// The fault of a reply to the ask for this tile.
fn fault_of(alloc: Global, reply: &[u8]) -> Option<WireFault> {
    let mut left = reply;
    read_reply(alloc, &mut left, Version::One, &FIRST_TILE_KEY).err()
}

#[test]
fn tile_whose_reply_has_a_wrong_digest_or_another_key_is_loaded_here(rt: HostRuntime) {
    for (what, reply, fault, entered, taken) in &FIRST_TILE_REPLIES {
        assert!(rt; is_same(&fault_of(rt.alloc(), reply), fault), "{what}");
        let asked = Asked {
            way: Way::Sends(reply),
            sends: FIRST_TILE,
            entered: *entered,
            taken: *taken,
            ..OF_CORNER
        };
        let counts = beside_owner(&rt, &rt, &asked);
        let known = [Some(*entered), None, None, Some(*taken)];
        assert!(rt; are_known(counts, &known), "{what}: {counts:?}");
    }
}

/// The counts of a node that is asked for a tile, and whose viewer sends this, beside a node that is gone and owns every key. Its listener
/// is stopped and stays: nobody is at its address, and nobody else gets it meanwhile.
fn beside_a_dead_one<R>(rt: &R, host: &HostRuntime, sends: &Sends<'_>) -> Option<Counts>
where
    R: Opens
        + Net<Listener = TcpListener, Stream = TcpStream>
        + Threads
        + Wait
        + Clock
        + Sync
        + AllocGlobal,
    R::Handle: Send + Sync,
{
    let gone = TcpListener::bind(host, ANY).ok()?;
    stop(&gone);
    let address = address_of(rt.alloc(), &gone)?;
    let scene = Scene {
        owner: Some(address.as_str()),
        ..SAMPLE
    };
    served(rt, host, &scene, Visit::NodeAndViewer(sends))
}

/// A request of a viewer, and the counts. The owner is gone, and wasn't asked for the node's ask; for the viewer the tile was there
/// already.
static BESIDE_A_DEAD_ONE: [(Sends<'static>, [Option<u64>; 4]); 2] = [
    (CORNER, [Some(2), Some(1), Some(1), Some(0)]),
    (HALVED, [None; 4]),
];

#[test]
fn viewers_and_nodes_share_what_is_loaded(rt: HostRuntime) {
    for (sends, known) in &BESIDE_A_DEAD_ONE {
        let counts = beside_a_dead_one(&rt, &rt, sends);
        assert!(rt; are_known(counts, known), "{counts:?}");
    }
}
