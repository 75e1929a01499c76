//! Scenes at nodes of their own, each with what has to be seen.

use crate::fixtures::{is_same, is_unwanted};
use crate::group::bars::Bar;
use crate::group::nodes::{Owner, Setup, way_to};
use crate::group::scenes::{Scene, Seen, played};
use std::alloc::Global;
use std::net::{Net, TcpListener, TcpStream};
use std::sync::Wait;
use std::thread::Threads;
use std::time::Clock;

/// A node, a scene there, and what is seen.
pub(crate) struct Case {
    pub what: &'static str,
    pub owner: Owner,
    /// Which read of `a` fails first.
    pub fuse: u64,
    /// How many bytes the node keeps of tiles, and of sums.
    pub bytes: u64,
    /// The first read of `a` waits until another is inside.
    pub reads_meet: bool,
    /// The first that asks the owner waits until another asks it.
    pub asks_meet: bool,
    pub scene: Scene,
    pub seen: Seen,
}

/// A case's node, whose loads pass a gate, and whose asks of the owner pass a bar.
fn set_up<'a>(case: &Case, gate: &'a Bar, asks: &'a Bar) -> Setup<'a> {
    Setup {
        fuse: case.fuse,
        bytes: case.bytes,
        meets: case.reads_meet,
        stands: matches!(case.owner, Owner::Itself),
        way: way_to(&case.owner, asks),
        gate,
        crossing: None,
    }
}

/// Whether that is seen, and no thread went on at a bar that nobody lifted. The gate is closed where calls meet, and else it is open.
fn is_seen<R>(rt: &R, alloc: Global, case: &Case) -> bool
where
    R: Net<Listener = TcpListener, Stream = TcpStream> + Threads + Wait + Clock + Send + Sync,
{
    let gate = Bar::new(!matches!(case.scene, Scene::Meets(_) | Scene::Crowds(_)));
    let asks = Bar::new(!case.asks_meet);
    let setup = set_up(case, &gate, &asks);
    match played(rt, alloc, &setup, &case.scene) {
        Ok(seen) => is_same(&seen, &case.seen) && !gate.is_left() && !asks.is_left(),
        Err(fault) => is_unwanted(&fault),
    }
}

/// The name of the first case with other observations; no word where there is none.
pub(crate) fn first_wrong<R>(rt: &R, alloc: Global, cases: &'static [Case]) -> &'static str
where
    R: Net<Listener = TcpListener, Stream = TcpStream> + Threads + Wait + Clock + Send + Sync,
{
    for case in cases {
        if !is_seen(rt, alloc, case) {
            return case.what;
        }
    }
    ""
}
