//! Nodes over files in memory: their images, their gates, and their ways to the node that owns their keys.

use crate::fixtures::books::NO_CALLS;
use crate::fixtures::files::{DEEP, SAMPLE};
use crate::group::bars::Bar;
use crate::group::crossings::Crossing;
use crate::group::doorways::Doorway;
use crate::group::peers::{Peer, Way};
use iiif_group::{Cluster, Group};
use iiif_keys::{CacheKey, Fault, System};
use iiif_ring::Ring;
use iiif_source::{FuseSource, MemSource};
use iiif_sum_group::{Groups, Passes};
use iiif_tables::Book;
use iiif_tiff_read::open;
use iiif_tile_group::Catalogue;
use std::alloc::Global;
use std::num::NonZeroUsize;
use std::sync::Wait;
use std::sync::ledger::{Blank, Ledger};
use std::time::Clock;

/// The images of a node: their names, their files, and which of their reads fails first. Of `a` it is said by the node's own setup.
static IMAGES: [(&str, &[u8], u64); 3] = [("a", &SAMPLE, 0), ("g", &DEEP, 99), ("f", &SAMPLE, 1)];

/// Bytes for all that a scene keeps.
pub(crate) const ROOMY: u64 = 9999;

/// How a node is set up.
#[derive(Drop)]
pub(crate) struct Setup<'a> {
    /// Which read of the image `a` fails first.
    pub fuse: u64,
    /// How many bytes it keeps of tiles, and of sums.
    pub bytes: u64,
    /// Whether the first read of `a` waits until another is inside.
    pub meets: bool,
    /// Whether the node owns its keys. Else another owns all of them.
    pub stands: bool,
    /// The way to the owner.
    pub way: Way<'a>,
    /// The gate that each load passes.
    pub gate: &'a Bar,
    /// Where it and another ask each other.
    pub crossing: Option<Crossing<'a>>,
}

/// The owner of the keys of a node.
pub(crate) enum Owner {
    Itself,
    /// Another, which refuses with status 3.
    Refuses,
    /// Another, which gives a tile of the key's shape.
    Gives,
    /// Another, which gives a tile of another shape.
    GivesWide,
}

/// The way to an owner. The first ask waits at the bar until another comes, if that isn't lifted.
pub(crate) fn way_to<'a>(owner: &Owner, bar: &'a Bar) -> Way<'a> {
    match owner {
        Owner::Refuses => Way::Refuses(bar),
        Owner::Itself | Owner::Gives => Way::Gives {
            is_wide: false,
            bar,
        },
        Owner::GivesWide => Way::Gives { is_wide: true, bar },
    }
}

/// A node over images in memory.
pub(crate) type Node<'a, R, J> = Groups<R, Doorway, J, Peer<'a, J>, &'a Bar>;

/// Takes an image in: its name, its file, which of its reads fails first, and whether the first waits for another. None where memory was
/// wanted.
fn add<R: Clock>(
    rt: &R,
    alloc: Global,
    catalogue: &mut Catalogue<R, Doorway>,
    name: &str,
    file: &[u8],
    fuse: u64,
    meets: bool,
) -> Option<()> {
    let memory = MemSource::new(Vec::from_slice(alloc, file).ok()?);
    let Ok(layout) = open(rt, alloc, &memory) else {
        return None;
    };
    let name = String::from_str(alloc, name).ok()?;
    let source = Doorway::new(FuseSource::new(memory, fuse), meets);
    match catalogue.add(name, source, layout) {
        Ok(()) => Some(()),
        Err(_) => None,
    }
}

/// The images of a node. None where memory was wanted.
pub(crate) fn catalogue<R: Clock>(
    rt: &R,
    alloc: Global,
    setup: &Setup<'_>,
) -> Option<Catalogue<R, Doorway>> {
    let mut catalogue = Catalogue::new(alloc);
    for (name, file, fuse) in IMAGES.iter() {
        let (fuse, meets) = if *fuse == 0 {
            (setup.fuse, setup.meets)
        } else {
            (*fuse, false)
        };
        add(rt, alloc, &mut catalogue, name, file, fuse, meets)?;
    }
    Some(catalogue)
}

/// The ring of one node.
pub(crate) fn ring(alloc: Global) -> Result<Ring, Fault> {
    let Ok(name) = String::from_str(alloc, "n") else {
        return Err(Fault::NoMemory);
    };
    let Ok(names) = Vec::from_array(alloc, [name]) else {
        return Err(Fault::NoMemory);
    };
    match Ring::new(alloc, names) {
        Ok(ring) => Ok(ring),
        Err(_) => Err(Fault::NoMemory),
    }
}

/// A group of a node.
pub(crate) fn shared<'a, K: CacheKey, J: System, L: Ledger>(
    alloc: Global,
    setup: &'a Setup<'a>,
    blank: Blank,
) -> Result<Group<K, J, L, Peer<'a, J>, &'a Bar>, Fault> {
    let ring = ring(alloc)?;
    let Ok(links) = Vec::from_array(alloc, [Peer::new(alloc, &setup.way)]) else {
        return Err(Fault::NoMemory);
    };
    let entries = NonZeroUsize::MIN.saturating_add(7);
    let own = if setup.stands { Some(0) } else { None };
    let bytes = setup.bytes.min(ROOMY);
    let cluster = Cluster { ring, own, links };
    Ok(Group::new(alloc, bytes, entries, setup.gate, cluster, blank)?)
}

/// A pass of each group.
pub(crate) fn passes<R: Wait + Clock, J: System>(
    rt: &R,
    node: &Node<'_, R, J>,
) -> Option<Passes<J>> {
    Some(Passes {
        tile: node.tiles().group().pass(rt)?,
        sum: node.sums().pass(rt)?,
    })
}

/// The books of the tiles and of the sums.
pub(crate) fn books<R: Wait + Clock, J: System>(rt: &R, node: &Node<'_, R, J>) -> (Book, Book) {
    (node.tiles().group().book(rt), node.sums().book(rt))
}

/// So many calls, each of which led and loaded.
pub(crate) const ONE: Book = Book {
    gets: 1,
    leads: 1,
    loads: 1,
    landed: 1,
    ..NO_CALLS
};

pub(crate) const TWO: Book = Book {
    gets: 2,
    leads: 2,
    loads: 2,
    landed: 2,
    ..NO_CALLS
};

pub(crate) const THREE: Book = Book {
    gets: 3,
    leads: 3,
    loads: 3,
    landed: 3,
    ..NO_CALLS
};

pub(crate) const FOUR: Book = Book {
    gets: 4,
    leads: 4,
    loads: 4,
    landed: 4,
    ..NO_CALLS
};

pub(crate) const FIVE: Book = Book {
    gets: 5,
    leads: 5,
    loads: 5,
    landed: 5,
    ..NO_CALLS
};

pub(crate) const SIX: Book = Book {
    gets: 6,
    leads: 6,
    loads: 6,
    landed: 6,
    ..NO_CALLS
};

pub(crate) const SEVEN: Book = Book {
    gets: 7,
    leads: 7,
    loads: 7,
    landed: 7,
    ..NO_CALLS
};
