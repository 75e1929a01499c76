//! A read that fails once: it is told, whichever of all it is, and isn't tried again for the same answer.

use crate::fixtures::files::{BROAD, HALVED_FILE, SAMPLE_FILE};
use crate::server::answer_tests::FAULT;
use crate::server::band_tests::{HALF_IS_WHOLE, MEAN, SAMPLE_IS_WHOLE};
use crate::server::cases::{Ask, Case, HALF, NODE, ONE, Setup, Text, WHOLE, Want};
use crate::server::nodes::are_right;
use std::sync::Wait;
use std::thread::Threads;
use std::time::Clock;

/// How many tiles the sample has at an edge of 1. Each takes one read.
const TILES: u64 = 16;

/// One read for each tile, and the one that failed.
const EACH_READ_ONCE: Case<'static> = (Ask::Reads, Want::Booked(TILES + 1, TILES + 1, 0));

/// A body of which a read fails, and the same once more: the line of a source that fails or a part, and then all of it.
const HALF_REFUSED: &[Case<'static>] = &[(Ask::Body(HALF), FAULT), HALF_IS_WHOLE, EACH_READ_ONCE];

const SAMPLE_REFUSED: &[Case<'static>] = &[
    (Ask::Body(WHOLE), FAULT),
    SAMPLE_IS_WHOLE,
    EACH_READ_ONCE,
];

const SAMPLE_CUT: &[Case<'static>] = &[
    (Ask::Body(WHOLE), Want::Front(b"", &SAMPLE_FILE)),
    SAMPLE_IS_WHOLE,
    EACH_READ_ONCE,
];

/// The sample at one place is a block of level 2, with 4 of level 1 and 16 of level 0 below it. Each of these 21 is loaded once, and those
/// of the tile whose read failed, one of each level, in vain before.
const EACH_LOADED_ONCE: Case<'static> = (Ask::Sums, Want::Booked(24, 42, 24));

const ONE_REFUSED: &[Case<'static>] = &[
    (Ask::Body(ONE), FAULT),
    MEAN,
    EACH_READ_ONCE,
    EACH_LOADED_ONCE,
];

/// How many tiles the broad picture has at an edge of 1.
const BROAD_TILES: u64 = 256;

const BROAD_REFUSED: &[Case<'static>] = &[
    (Ask::Body(ONE), FAULT),
    MEAN,
    (
        Ask::Reads,
        Want::Booked(BROAD_TILES + 1, BROAD_TILES + 1, 0),
    ),
];

/// At one place the broad picture is a block of level 4, whose parts are shared out among the workers. The reads that fail are 17 apart,
/// one of each row of tiles and of each column.
static SHARED_ONCE: Once = ("parts of one block", 64, 1, BROAD_TILES, 17, BROAD_REFUSED);

/// A name, the rows of a band, the first and the last of the reads that fail, how far one is from the next, and what comes then. One of
/// them fails each time.
type Once = (&'static str, u32, u64, u64, u64, &'static [Case<'static>]);

/// Half the sample is made of one block, whose reads all come before the first band. Of the whole sample in bands of one row four tiles are
/// read for each band, so that a fault behind the first four cuts.
static ONCE: [Once; 6] = [
    ("one place", 64, 1, TILES, 1, ONE_REFUSED),
    ("half, in bands of 1", 1, 1, TILES, 1, HALF_REFUSED),
    ("half, in a band", 64, 1, TILES, 1, HALF_REFUSED),
    ("whole, first of bands of 1", 1, 1, 4, 1, SAMPLE_REFUSED),
    ("whole, later of bands of 1", 1, 5, TILES, 1, SAMPLE_CUT),
    ("whole, in a band", 64, 1, TILES, 1, SAMPLE_REFUSED),
];

/// The first read of a file whose failing doesn't end a body in this way, by so many workers. None where there is none.
fn other_end<R: Threads + Wait + Clock + Sync + AllocGlobal>(
    rt: &R,
    file: &'static [u8],
    once: &Once,
    workers: u32,
) -> Option<u64> {
    let (_, rows, first, last, step, cases) = *once;
    let mut k = first;
    while k <= last {
        let setup = Setup {
            file,
            edge: 1,
            rows,
            workers,
            k,
            once: true,
            ..NODE
        };
        if !are_right(rt, &setup, cases) {
            return Some(k);
        }
        k += step;
    }
    None
}

#[test]
fn a_read_that_fails_once_is_told_and_not_tried_again(rt: HostRuntime) {
    for once in &ONCE {
        for workers in [1, 2, 4] {
            let other = other_end(&rt, NODE.file, once, workers);
            assert!(rt; other.is_none(), "{}, by {workers}: {other:?}", once.0);
        }
    }
}

#[test]
fn a_read_that_fails_once_is_told_where_parts_are_shared_out(rt: HostRuntime) {
    for workers in [1, 2, 4] {
        let other = other_end(&rt, &BROAD, &SHARED_ONCE, workers);
        assert!(rt; other.is_none(), "by {workers}: {other:?}");
    }
}
