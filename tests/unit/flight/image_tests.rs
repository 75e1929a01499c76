//! Images of files in memory, found by their names, and their tiles.

use crate::fixtures::files::{DEEP, SAMPLE};
use crate::fixtures::is_same;
use crate::fixtures::names::name;
use iiif_fault::Numbered;
use iiif_group::{Cluster, Group, NoGate, NoLink};
use iiif_keys::{PARTS, System, TileKey};
use iiif_pixel::Span;
use iiif_ring::Ring;
use iiif_source::{FuseSource, MemSource, Source};
use iiif_tiff_read::open;
use iiif_tile_group::{AddFault, Catalogue, Images, Tiles};
use std::alloc::Global;
use std::marker::Brand;
use std::num::NonZeroUsize;
use std::sync::ledger::Blank;

/// The images of the tests: their names, their files, and which of the reads of their tiles fails first.
static IMAGES: [(&str, &[u8], u64); 3] = [
    ("a", &SAMPLE, 99),
    ("deep", &DEEP, 99),
    ("broken", &SAMPLE, 1),
];

type Fused = FuseSource<MemSource>;

/// The answer to taking in a file.
fn added(
    alloc: Global,
    catalogue: &mut Catalogue<(), Fused>,
    name: &str,
    file: &[u8],
    fuse: u64,
) -> Option<Result<(), AddFault>> {
    let name = String::from_str(alloc, name).ok()?;
    let memory = MemSource::new(Vec::from_slice(alloc, file).ok()?);
    let Ok(layout) = open(&(), alloc, &memory) else {
        return None;
    };
    Some(catalogue.add(name, FuseSource::new(memory, fuse), layout))
}

/// A name that is taken in, one that was taken before it, one that isn't there behind it, and what taking it in answers.
type Taken = (
    &'static str,
    &'static str,
    &'static str,
    Result<(), AddFault>,
);

/// Images that are taken in one after another.
static TAKEN: [Taken; 7] = [
    ("a", "a", "b", Ok(())),
    ("a", "a", "b", Err(AddFault::Twice)),
    ("", "a", "b", Err(AddFault::Name)),
    ("b", "a", "c", Ok(())),
    ("c", "b", "d", Ok(())),
    ("b", "c", "d", Err(AddFault::Twice)),
    ("", "c", "d", Err(AddFault::Name)),
];

/// Whether the sample is taken in under a name as it is to be, once more where memory ran out, which has to leave this name and the
/// one before as they were.
fn is_taken(alloc: Global, catalogue: &mut Catalogue<(), Fused>, taken: &Taken) -> bool {
    let (name, before, missing, answer) = taken;
    let had = (catalogue.has(name), catalogue.has(before));
    let mut is = added(alloc, catalogue, name, &SAMPLE, 99);
    if is.is_none() || is == Some(Err(AddFault::NoMemory)) {
        if !is_same(&had, &(catalogue.has(name), catalogue.has(before))) {
            return false;
        }
        is = added(alloc, catalogue, name, &SAMPLE, 99);
    }
    is_same(&is, &Some(*answer)) && catalogue.has(before) && !catalogue.has(missing)
}

#[test]
fn name_is_taken_once_after_a_refused_growth(rt: HostRuntime) {
    let mut catalogue = Catalogue::new(rt.alloc());
    for (line, taken) in TAKEN.iter().enumerate() {
        assert!(rt; is_taken(rt.alloc(), &mut catalogue, taken), "{line}");
    }
    assert!(rt; catalogue.has("a") && catalogue.has("b") && catalogue.has("c"));
}

/// A tile's name, edge, column and row, and its samples, or the number of the fault.
type Tile = (&'static str, u32, u32, u32, Result<Span<'static>, u8>);

/// Tiles of the images.
static TILES: [Tile; 7] = [
    ("a", 2, 0, 0, Ok(Span::Eight(&[0, 10, 40, 50]))),
    ("a", 2, 1, 1, Ok(Span::Eight(&[100, 110, 140, 150]))),
    ("deep", 2, 0, 0, Ok(Span::Sixteen(&[0, 65_535]))),
    ("broken", 2, 0, 0, Err(1)),
    ("c", 3, 9, 9, Err(3)),
    ("a", 3, 0, 0, Err(4)),
    ("a", 2, 2, 0, Err(4)),
];

/// Whether a tile is loaded as it is to be.
fn is_right<S: Source<()> + Drop, J: System>(
    alloc: Global,
    tiles: &Tiles<(), S, J, NoLink, NoGate>,
    tile: &Tile,
) -> Option<bool> {
    let (text, edge, tx, ty, answer) = tile;
    let key = TileKey {
        name: name(alloc, text)?,
        edge: *edge,
        tx: *tx,
        ty: *ty,
    };
    Some(match tiles.load(&(), &key) {
        Ok(tile) => is_same(answer, &Ok(tile.raster.samples())),
        Err(fault) => is_same(answer, &Err(fault.number())),
    })
}

/// Tiles of 2 by 2, which a group of one node shares.
fn tiles_of<S: Source<()> + Drop, J: System>(
    alloc: Global,
    catalogue: Catalogue<(), S>,
) -> Option<Tiles<(), S, J, NoLink, NoGate>> {
    let name = String::from_str(alloc, "n").ok()?;
    let cluster = Cluster {
        ring: Ring::new(alloc, Vec::from_array(alloc, [name]).ok()?).ok()?,
        own: Some(0),
        links: Vec::from_array(alloc, [NoLink]).ok()?,
    };
    let group = Group::new(alloc, 99, NonZeroUsize::MIN, NoGate, cluster, Blank::new(PARTS)).ok()?;
    Some(Tiles::new(alloc, Images::new(catalogue, 2), group))
}

/// The place of the first tile that isn't as it is to be.
fn wrong_tile<S: Source<()> + Drop, J: System>(
    alloc: Global,
    catalogue: Catalogue<(), S>,
) -> Option<usize> {
    let Some(tiles) = tiles_of::<S, J>(alloc, catalogue) else {
        return Some(TILES.len());
    };
    for (place, tile) in TILES.iter().enumerate() {
        if is_right(alloc, &tiles, tile) != Some(true) {
            return Some(place);
        }
    }
    None
}

#[test]
fn tiles_are_of_the_named_image(rt: HostRuntime) {
    let mut catalogue = Catalogue::new(rt.alloc());
    for (name, file, fuse) in &IMAGES {
        let answer = added(rt.alloc(), &mut catalogue, name, file, *fuse);
        assert!(rt; is_same(&answer, &Some(Ok(()))), "{name}");
    }
    let wrong = wrong_tile::<Fused, Brand>(rt.alloc(), catalogue);
    assert!(rt; wrong.is_none(), "row {wrong:?}");
}
