//! Nodes that serve over loopback, alone or beside another one, and what they counted.

use crate::connections::pipe::{Inflow, Pipe};
use crate::fixtures::is_same;
use iiif_canonical::Limits;
use iiif_connections::times::USUAL;
use iiif_connections::{
    Catalogue, Config, Links, Node, Nodes, Room, Server, Start, Times, Watcher, among,
    serve_generation,
};
use iiif_keys::{PARTS, System};
use iiif_open_files::Opens;
use iiif_listener::{Inbox, OpenConnections};
use iiif_log::write_lines;
use iiif_server::{Gate, SumCalls, TileCalls};
use iiif_services::{AllPlaces, Ended, Listeners, Starts, Work, take_all};
use iiif_start::{Held, Holding, Images, Opening, Stored, open_images};
use std::alloc::Global;
use std::marker::Brand;
use std::net::{Net, TcpListener, TcpStream};
use std::num::NonZeroUsize;
use std::sync::Wait;
use std::sync::ledger::{Blank, Ledger};
use std::thread;
use std::thread::Threads;
use std::time::Clock;

/// The base URL of each node.
const BASE: &str = "http://localhost/iiif";

/// The setup of a server: each image's name and file, how many of these stay open, and of how many bytes one is held in memory; the side
/// of its tiles, the address of the node that owns each key, where there is one, and its limits of time; where its statistics are asked
/// for, and whether it logs. Its own name is `self`.
#[derive(Clone, Copy)]
pub(crate) struct Scene<'i, 'o> {
    pub images: &'i [(&'i str, &'i str)],
    pub open_files: usize,
    pub hold: u64,
    pub edge: u32,
    pub owner: Option<&'o str>,
    pub times: Times,
    pub statistics: Option<&'static str>,
    pub logs: bool,
}

/// The sample under the name `a`, and no other node.
pub(crate) const SAMPLE: Scene<'static, 'static> = Scene {
    images: &[("a", ":sample")],
    open_files: 4,
    hold: 0,
    edge: 2,
    owner: None,
    times: Times {
        // However busy the machine is, a viewer who sends no more is answered.
        gone: 600_000,
        ..USUAL
    },
    statistics: None,
    logs: false,
};

/// A node that owns each key of the sample, and of `g`, at tiles of 2 by 2, beside one of the name `self`: Python's `hashlib` worked
/// it out.
const OWNER: &str = "other85";

/// The files that are told to be held.
const HELD: Held = Held {
    images: 3,
    bytes: 456,
};

/// The watcher of a scene's node.
pub(crate) fn watcher_of(alloc: Global, scene: &Scene<'_, '_>) -> Option<Watcher> {
    let mut peers = Vec::new(alloc);
    if let Some(owner) = scene.owner {
        peers.push((OWNER, owner)).ok()?;
    }
    let nodes = Nodes {
        own: "self",
        listen: "",
        peers: &peers,
        ask: scene.times.ask,
    };
    Watcher::new(alloc, scene.logs, &nodes).ok()
}

/// How much a group keeps.
fn room() -> Option<Room> {
    Some(Room {
        bytes: 1 << 26,
        entries: NonZeroUsize::new(4096)?,
    })
}

/// The counts of a node: of its groups together, and of the whole answers to viewers, by their status.
#[derive(Clone, Copy, Debug)]
pub(crate) struct Counts {
    pub gets: u64,
    pub hits: u64,
    pub loads: u64,
    pub peer: u64,
    pub whole: [u64; 8],
}

/// Whether something was counted, and the gets, hits, loads and values of peers are these, each where it is known.
pub(crate) fn are_known(counts: Option<Counts>, known: &[Option<u64>; 4]) -> bool {
    let Some(counts) = counts else {
        return false;
    };
    let [gets, hits, loads, peer] = *known;
    is_same(&gets.unwrap_or(counts.gets), &counts.gets)
        && is_same(&hits.unwrap_or(counts.hits), &counts.hits)
        && is_same(&loads.unwrap_or(counts.loads), &counts.loads)
        && is_same(&peer.unwrap_or(counts.peer), &counts.peer)
}

/// The stage of a node: its scene, who is told, at which listeners, and where its log goes.
#[derive(Clone, Copy)]
pub(crate) struct Stage<'a> {
    pub watcher: &'a Watcher,
    pub listeners: &'a Listeners,
    pub pipe: &'a Pipe,
}

/// The counts of a node and of its watcher so far.
fn counted<R: Opens + Wait, J: System, N, T>(
    rt: &R,
    node: &Node<R, Stored<R>, J, N, T>,
    watcher: &Watcher,
) -> Counts {
    let tiles = node.groups().tiles().book(rt);
    let sums = node.groups().sums().book(rt);
    let whole = watcher.tally.counts(rt).whole;
    Counts {
        gets: tiles.gets.saturating_add(sums.gets),
        hits: tiles.hits.saturating_add(sums.hits),
        loads: tiles.loads.saturating_add(sums.loads),
        peer: tiles.peer.saturating_add(sums.peer),
        whole,
    }
}

/// Whether all passes of a node are home.
fn are_home<R: Opens + Wait, J: System, N, T>(
    rt: &R,
    alloc: Global,
    node: &Node<R, Stored<R>, J, N, T>,
) -> bool {
    let groups = node.groups();
    groups.tiles().gather(rt, Vec::new(alloc)).is_ok()
        && groups.sums().gather(rt, Vec::new(alloc)).is_ok()
}

/// A node that serves as the only generation.
#[derive(Drop)]
struct Only<'x, 'p, R: Opens + Wait, J: System, N, T>
where
    TileCalls<J>: Ledger,
    SumCalls<J>: Ledger,
{
    server: &'x Server<'x, 'p, R>,
    node: &'x Node<R, Stored<R>, J, N, T>,
    images: Images,
}

impl<'x, 'p, R, J, N, T> Work for Only<'x, 'p, R, J, N, T>
where
    R: Opens + Net<Listener = TcpListener, Stream = TcpStream> + Threads + Wait + Clock + Sync,
    R::Handle: Send + Sync,
    J: System + Send + Sync,
    N: Links<J, R> + Sync,
    T: Gate<R> + Sync,
{
    fn run(self) -> Ended {
        let Only {
            server,
            node,
            images,
        } = self;
        server.inbox.enter(server.rt);
        let start = Start {
            number: 1,
            images,
            versions: None,
            said: Vec::new(server.alloc),
        };
        serve_generation(server, node, start);
        server.inbox.end(server.rt);
        Ended::Listener
    }
}

/// Serves by one node until a listener is stopped, and closes the log.
fn serve_server<R, J, N, T>(
    rt: &R,
    alloc: Global,
    node: &Node<R, Stored<R>, J, N, T>,
    served: u64,
    times: Times,
    stage: Stage<'_>,
) -> Option<()>
where
    R: Opens + Net<Listener = TcpListener, Stream = TcpStream> + Threads + Wait + Clock + Sync,
    R::Handle: Send + Sync,
    J: System + Send + Sync,
    N: Links<J, R> + Sync,
    T: Gate<R> + Sync,
{
    let listeners = stage.listeners;
    let places = AllPlaces::new(alloc, 0).ok()?;
    let inbox = Inbox::new(rt, alloc, listeners.doors()).ok()?;
    let (connections, starts) = (OpenConnections::new(), Starts::new());
    let server = Server {
        rt,
        alloc,
        workers: 2,
        times,
        watcher: stage.watcher,
        connections: &connections,
        listeners,
        inbox: &inbox,
        starts: &starts,
    };
    let only = Only {
        server: &server,
        node,
        images: Images {
            served,
            unfit: 0,
            held: HELD,
        },
    };
    let checker = server.health_checker();
    take_all(rt, alloc, listeners, &places, &inbox, &server, checker, only);
    if let Some(log) = &stage.watcher.log {
        log.close(rt);
    }
    Some(())
}

/// Serves by one node until a listener is stopped, writes the log, and says what the node counted, where each connection gave its passes
/// back.
fn serve_by<R, J, N, T>(
    rt: &R,
    alloc: Global,
    node: &Node<R, Stored<R>, J, N, T>,
    served: u64,
    times: Times,
    stage: Stage<'_>,
) -> Option<Counts>
where
    R: Opens + Net<Listener = TcpListener, Stream = TcpStream> + Threads + Wait + Clock + Sync,
    R::Handle: Send + Sync,
    J: System + Send + Sync,
    N: Links<J, R> + Sync,
    T: Gate<R> + Sync,
{
    let pipe = stage.pipe;
    let mut lines = Inflow { rt, pipe };
    let served = match &stage.watcher.log {
        Some(log) => {
            let (_, served) = thread::join(
                rt,
                || write_lines(rt, alloc, log, &mut lines),
                || serve_server(rt, alloc, node, served, times, stage),
            );
            served
        }
        None => serve_server(rt, alloc, node, served, times, stage),
    };
    served?;
    if are_home(rt, alloc, node) {
        Some(counted(rt, node, stage.watcher))
    } else {
        None
    }
}

/// Serves by a node of these settings and images that asks no other.
fn serve_alone<R, J>(
    rt: &R,
    alloc: Global,
    config: Config,
    catalogue: Catalogue<R, Stored<R>>,
    tiles: Blank,
    sums: Blank,
    served: u64,
    times: Times,
    stage: Stage<'_>,
) -> Option<Counts>
where
    R: Opens + Net<Listener = TcpListener, Stream = TcpStream> + Threads + Wait + Clock + Sync,
    R::Handle: Send + Sync,
    J: System + Send + Sync,
{
    let node = Node::<R, Stored<R>, J>::alone(alloc, config, catalogue, room()?, tiles, sums).ok()?;
    serve_by(rt, alloc, &node, served, times, stage)
}

/// Serves by a node among others.
fn serve_among<R, J>(
    rt: &R,
    alloc: Global,
    config: Config,
    catalogue: Catalogue<R, Stored<R>>,
    tiles: Blank,
    sums: Blank,
    served: u64,
    times: Times,
    stage: Stage<'_>,
) -> Option<Counts>
where
    R: Opens + Net<Listener = TcpListener, Stream = TcpStream> + Threads + Wait + Clock + Sync,
    R::Handle: Send + Sync,
    J: System + Send + Sync,
{
    let watcher = stage.watcher;
    let blanks = (tiles, sums);
    let node = among::<R, R, J>(alloc, config, catalogue, watcher, None, room()?, blanks).ok()?;
    serve_by(rt, alloc, &node, served, times, stage)
}

/// Serves by a scene's node at the listeners until one is stopped, writes the log where the watcher has one, and says what was counted.
pub(crate) fn serve_told<R>(rt: &R, scene: &Scene<'_, '_>, stage: Stage<'_>) -> Option<Counts>
where
    R: Opens
        + Net<Listener = TcpListener, Stream = TcpStream>
        + Threads
        + Wait
        + Clock
        + Sync
        + AllocGlobal,
    R::Handle: Send + Sync,
{
    let alloc = rt.alloc();
    let limits = Limits {
        max_w: 4096,
        max_h: 4096,
        upscale: false,
    };
    let times = scene.times;
    let config = Config::new(alloc, BASE, scene.edge, limits, 64, 2).ok()?;
    let opening = Opening {
        open_files: NonZeroUsize::new(scene.open_files)?,
        holding: Holding {
            bytes: scene.hold,
            bag: None,
        },
        skip_unfit: false,
        failures: Some(&stage.watcher.failures),
    };
    let catalogue = open_images(rt, alloc, scene.images, opening)
        .ok()?
        .catalogue;
    let (tiles, sums) = (Blank::new(PARTS), Blank::new(PARTS));
    let served = scene.images.len() as u64;
    if scene.owner.is_none() {
        return serve_alone::<R, Brand>(
            rt, alloc, config, catalogue, tiles, sums, served, times, stage,
        );
    }
    stage.watcher.peers.look_up(rt, alloc);
    serve_among::<R, Brand>(
        rt, alloc, config, catalogue, tiles, sums, served, times, stage,
    )
}
