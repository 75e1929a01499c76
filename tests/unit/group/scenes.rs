//! Scenes at nodes that are made for them, and the observations there.

use crate::fixtures::books::NO_CALLS;
use crate::group::calls::Answer;
use crate::group::crossings::{crossed, serves};
use crate::group::doorways::{Doorway, Reads};
use crate::group::meetings::{Meeting, crowded, met, overlapped};
use crate::group::nodes::{Node, Setup, catalogue, shared};
use crate::group::parts::parted;
use crate::group::runs::{Stages, Steps, gives_out, ran};
use iiif_keys::{Fault, PARTS, System};
use iiif_source::Source;
use iiif_sum_group::{Groups, Tiles};
use iiif_tables::Book;
use iiif_tile_group::{Catalogue, Images};
use std::alloc::Global;
use std::marker::Brand;
use std::net::{Net, TcpListener, TcpStream};
use std::sync::Wait;
use std::sync::ledger::Blank;
use std::thread::Threads;
use std::time::Clock;

/// A scene at a node.
pub(crate) enum Scene {
    /// Steps, one after another.
    Runs(Stages),
    /// Two calls for tiles that meet, and a third.
    Meets(Meeting),
    /// Four calls for one tile that meet.
    Crowds(Meeting),
    /// Two steps at once, and what each comes to. Their reads of the source overlap.
    Overlaps(Steps),
    /// Two calls at once for a block whose parts its caller gets, of which one joins the other, and what both come to.
    Parts(Answer),
    /// All asks of other nodes are replied to.
    Replies,
    /// So many passes are given out, and no more.
    GivesOut(u32),
    /// The node and another ask each other, as its setup says.
    Crosses,
}

/// The observations at a node.
#[derive(Clone, Copy, Debug, PartialEq, Eq)]
pub(crate) struct Seen {
    /// All came to what was wanted.
    pub is_right: bool,
    /// Memory was wanted for an answer, which was asked for once more.
    pub is_refused: bool,
    /// Of calls that meet: the two are told of one flight, and the third of the second's.
    pub are_same: (bool, bool),
    /// The books of the tiles and of the sums, behind the first steps or behind the two calls that meet.
    pub books: (Book, Book),
    /// The book of the tiles in the end, and the share of it that had come home.
    pub tiles: (Book, u64),
    /// The book of the sums so, and their share.
    pub sums: (Book, u64),
    /// The reads and passings in the end, which no book has counted.
    pub done: Done,
}

/// The work of loads: how often each tile of `a` was read, and how often the gate was passed.
pub(crate) type Done = (Reads, u64);

/// Says of a scene that no pass or thread came as it has to: no image is without a name there.
pub(crate) const ODD: Fault = Fault::UnknownName;

/// All right, and nothing called for.
pub(crate) const QUIET: Seen = Seen {
    is_right: true,
    is_refused: false,
    are_same: (false, false),
    books: (NO_CALLS, NO_CALLS),
    tiles: (NO_CALLS, 0),
    sums: (NO_CALLS, 0),
    done: ([0, 0, 0, 0], 0),
};

/// Plays a scene at a node.
fn shown<'a, R, J>(
    rt: &R,
    alloc: Global,
    node: &'a Node<'_, R, J>,
    setup: &'a Setup<'_>,
    scene: &'a Scene,
) -> Result<Seen, Fault>
where
    R: Net<Listener = TcpListener, Stream = TcpStream> + Threads + Wait + Clock + Send + Sync,
    J: System + Send + Sync,
{
    match scene {
        Scene::Runs(stages) => ran(rt, alloc, node, setup.gate, stages),
        Scene::Meets(meeting) => met(rt, alloc, node, setup.gate, meeting),
        Scene::Crowds(meeting) => crowded(rt, alloc, node, setup.gate, meeting),
        Scene::Overlaps(steps) => overlapped(rt, alloc, node, setup.gate, steps),
        Scene::Parts(wanted) => Ok(parted(rt, alloc, node, setup.gate, wanted)),
        Scene::Replies => serves(rt, alloc, node),
        Scene::GivesOut(count) => Ok(gives_out(rt, node, *count)),
        Scene::Crosses => crossed(rt, alloc, node, setup),
    }
}

/// Plays it at a node over the images of a catalogue, at tiles of 2 by 2.
fn seen_over<R, J>(
    rt: &R,
    alloc: Global,
    catalogue: Catalogue<R, Doorway>,
    setup: &Setup<'_>,
    scene: &Scene,
    tiles: Blank,
    sums: Blank,
) -> Result<Seen, Fault>
where
    R: Net<Listener = TcpListener, Stream = TcpStream> + Threads + Wait + Clock + Send + Sync,
    J: System + Send + Sync,
{
    let images = Images::new(catalogue, 2);
    let near = shared(alloc, setup, tiles)?;
    let far = shared(alloc, setup, sums)?;
    let node: Node<'_, R, J> = Groups::new(alloc, Tiles::new(alloc, images, near), far);
    shown(rt, alloc, &node, setup, scene)
}

/// The images of a node, made once more where memory was wanted.
fn catalogue_twice<R: Clock>(
    rt: &R,
    alloc: Global,
    setup: &Setup<'_>,
) -> Option<Catalogue<R, Doorway>> {
    match catalogue(rt, alloc, setup) {
        Some(catalogue) => Some(catalogue),
        None => catalogue(rt, alloc, setup),
    }
}

/// Plays a scene at a node that is set up for it.
pub(crate) fn played<R>(
    rt: &R,
    alloc: Global,
    setup: &Setup<'_>,
    scene: &Scene,
) -> Result<Seen, Fault>
where
    R: Net<Listener = TcpListener, Stream = TcpStream> + Threads + Wait + Clock + Send + Sync,
{
    let catalogue = catalogue_twice(rt, alloc, setup).ok_or(Fault::NoMemory)?;
    let (tiles, sums) = (Blank::new(PARTS), Blank::new(PARTS));
    seen_over::<_, Brand>(rt, alloc, catalogue, setup, scene, tiles, sums)
}
