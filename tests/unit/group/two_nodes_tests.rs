//! Two nodes over one file in memory, each asked for each of its tiles and for the sums of its overview. The owners of keys were computed
//! outside, by Python's `hashlib`.

use crate::fixtures::books::NO_CALLS;
use crate::fixtures::files::SAMPLE;
use crate::fixtures::{is_missing, is_same, is_unwanted};
use crate::group::keys::{block, tile};
use crate::group::nodes::{FIVE, ONE, SEVEN, TWO};
use iiif_keys::Fault;
use iiif_pixel::Span;
use iiif_tables::Book;
use iiif_tiff_read::OpenFault;
use iiif_witnesses::{PairFault, ask_sums, ask_tile};
use std::alloc::Global;
use std::sync::Wait;

/// One call, to which the other node gave the value.
const ASKED: Book = Book { peer: 1, ..ONE };

/// The column and the row of each tile of side 2, its samples, and whether the first node of the ring owns it.
static TILES: [(u32, u32, &[u8], bool); 4] = [
    (0, 0, &[0, 10, 40, 50], true),
    (1, 0, &[20, 30, 60, 70], true),
    (0, 1, &[80, 90, 120, 130], true),
    (1, 1, &[100, 110, 140, 150], false),
];

/// Whether the node answers the tile with these samples, and these are the books of it and of the other.
fn is_tile<R: Wait>(
    rt: &R,
    alloc: Global,
    is_first: bool,
    at: (u32, u32),
    samples: &[u8],
    books: (Book, Book),
) -> bool {
    let Ok(key) = tile(alloc, "a", at) else {
        return is_missing();
    };
    match ask_tile(rt, alloc, &SAMPLE, is_first, &key) {
        Ok(answer) => {
            is_same(&answer.value.raster.samples(), &Span::Eight(samples))
                && is_same(&(answer.asked, answer.other), &books)
        }
        Err(fault) => is_unwanted(&fault),
    }
}

#[test]
fn each_node_answers_each_tile_and_asks_its_owner(rt: HostRuntime) {
    for (tx, ty, samples, is_of_first) in TILES.iter() {
        for is_first in [true, false] {
            let books = if is_first == *is_of_first {
                (ONE, NO_CALLS)
            } else {
                (ASKED, ONE)
            };
            assert!(rt;
                is_tile(&rt, rt.alloc(), is_first, (*tx, *ty), samples, books),
                "{tx} {ty} {is_first}"
            );
        }
    }
}

/// Whether the node answers the sums of the overview of 2 by 2, and these are the books of it and of the other.
fn is_overview<R: Wait>(rt: &R, alloc: Global, is_first: bool, books: (Book, Book)) -> bool {
    let Ok(key) = block(alloc, 1, 0) else {
        return is_missing();
    };
    match ask_sums(rt, alloc, &SAMPLE, is_first, &key) {
        Ok(answer) => {
            let sums: &[u64] = &[400, 720, 1680, 2000];
            is_same(&answer.value.sums.sums(), &sums)
                && is_same(&(answer.asked, answer.other), &books)
        }
        Err(fault) => is_unwanted(&fault),
    }
}

#[test]
fn overview_that_the_other_node_owns(rt: HostRuntime) {
    // The other makes it of four blocks, of which it doesn't own two: it has no link, so each of these enters twice.
    assert!(rt; is_overview(&rt, rt.alloc(), true, (ASKED, SEVEN)));
}

#[test]
fn overview_of_blocks_that_the_other_node_owns(rt: HostRuntime) {
    let asked = Book { peer: 2, ..FIVE };
    assert!(rt; is_overview(&rt, rt.alloc(), false, (asked, TWO)));
}

#[test]
fn key_that_fits_no_tile_and_file_that_shows_no_picture(rt: HostRuntime) {
    let alloc = rt.alloc();
    let Ok(key) = tile(alloc, "a", (2, 0)) else {
        assert!(rt; is_missing());
        return;
    };
    let outside = match ask_tile(&rt, alloc, &SAMPLE, true, &key) {
        Ok(_) => is_missing(),
        Err(fault) => is_same(&fault, &PairFault::Ask(Fault::BadKey)),
    };
    let nothing: &[u8] = &[];
    let unread = match ask_tile(&rt, alloc, nothing, true, &key) {
        Ok(_) => is_missing(),
        Err(fault) => is_same(&fault, &PairFault::Open(OpenFault::NotTiff)),
    };
    assert!(rt; outside && unread);
}
