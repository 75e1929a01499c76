//! Bodies in bands.

use crate::fixtures::books::NO_CALLS;
use crate::fixtures::files::{BROAD, HALVED_FILE, SAMPLE_FILE, STEPS, TURNED, TURNED_FILE};
use crate::fixtures::is_same;
use crate::server::answer_tests::{FAULT, IMAGE, IMAGE_HEAD, UNREAD};
use crate::server::cases::{
    Ask, BY_FIVE, BY_ONE, BY_TWO, Case, HALF, IS_NOT_SO, IS_SO, LARGER, NODE, ONE, SLOWLY, Setup,
    Table, Text, Variant, Verb, WHOLE, Want,
};
use crate::server::nodes::{all_are, are_right, wrong_variant};
use iiif_tables::Book;
use std::sync::Wait;
use std::thread::Threads;
use std::time::Clock;

/// One worker, a band of all rows, and a cache that keeps all.
const AT_ONCE: Setup<'static> = Setup {
    rows: 64,
    workers: 1,
    bytes: 67_108_864,
    ..LARGER
};

/// A target, how many bytes its body has, and its last samples or bits.
type Body = (&'static [u8], usize, &'static [u8]);

/// Bodies, by hand.
static CASES: [Body; 9] = [
    (WHOLE, 190, &STEPS),
    (b"/iiif/a/full/max/90/default.tif", 190, &TURNED),
    (HALF, 178, &[25, 45, 105, 125]),
    (
        b"/iiif/a/full/3,3/0/default.tif",
        183,
        &[13, 25, 38, 63, 75, 88, 113, 125, 138],
    ),
    (b"/iiif/a/full/2,/90/default.tif", 178, &[105, 25, 125, 45]),
    (b"/iiif/a/full/2,/!90/default.tif", 178, &[125, 45, 105, 25]),
    (b"/iiif/a/3,3,5,5/max/0/default.tif", 175, &[150]),
    (b"/iiif/a/full/max/0/bitonal.tif", 178, &[0, 0, 0, 0x70]),
    (b"/iiif/a/0,0,1,1/^2,2/0/default.tif", 178, &[0, 0, 0, 0]),
];

/// Each number of workers.
static IN_BANDS: [&[Variant]; 3] = [BY_ONE, BY_TWO, BY_FIVE];

/// Whether the body of a target is this, each time of a new node.
fn is_in_bands<R: Threads + Wait + Clock + Sync + AllocGlobal>(rt: &R, body: &Body) -> bool {
    let (target, count, samples) = *body;
    let case = [(
        Ask::Body(target),
        Want::Whole(200, Text::Long(count, samples)),
    )];
    for variants in &IN_BANDS {
        if wrong_variant(rt, &LARGER, variants, &case).is_some() {
            return false;
        }
    }
    true
}

#[test]
fn bands_workers_and_caches_change_nothing(rt: HostRuntime) {
    for body in &CASES {
        assert!(rt; is_in_bands(&rt, body));
    }
}

/// The sample turned a quarter.
const TURNED_IS_WHOLE: &[Case<'static>] = &[(
    Ask::Body(b"/iiif/a/full/max/90/default.tif"),
    Want::Whole(200, Text::Is(&TURNED_FILE)),
)];

/// Bands of one row and of all, by one worker, two, four and five.
const ROWS_AND_WORKERS: &[Variant] = &[
    (2, 1, 1, 65_536),
    (2, 64, 1, 65_536),
    (2, 1, 2, 65_536),
    (2, 64, 2, 65_536),
    (2, 1, 4, 65_536),
    (2, 64, 4, 65_536),
    (2, 1, 5, 65_536),
    (2, 64, 5, 65_536),
];

#[test]
fn turned_sample_is_the_same_190_bytes_in_bands_of_any_rows_by_any_workers(rt: HostRuntime) {
    let wrong = wrong_variant(&rt, &NODE, ROWS_AND_WORKERS, TURNED_IS_WHOLE);
    assert!(rt; wrong.is_none(), "{wrong:?}");
}

pub(crate) const SAMPLE_IS_WHOLE: Case<'static> = (
    Ask::Body(WHOLE),
    Want::Whole(200, Text::Is(&SAMPLE_FILE)),
);

pub(crate) const HALF_IS_WHOLE: Case<'static> = (
    Ask::Body(HALF),
    Want::Whole(200, Text::Is(&HALVED_FILE)),
);

const MENDED: Case<'static> = (Ask::Mend, Want::Whole(0, Text::Is(b"")));

/// A body that ends in some way where a read and each later one fails, and is whole once the source is mended: the line of a source that
/// fails, a part, or whole at once.
const SAMPLE_REFUSED: &[Case<'static>] = &[(Ask::Body(WHOLE), FAULT), MENDED, SAMPLE_IS_WHOLE];

const SAMPLE_CUT: &[Case<'static>] = &[
    (Ask::Body(WHOLE), Want::Front(b"", &SAMPLE_FILE)),
    MENDED,
    SAMPLE_IS_WHOLE,
];

const SAMPLE_SENT: &[Case<'static>] = &[SAMPLE_IS_WHOLE, MENDED, SAMPLE_IS_WHOLE];

/// An answer with its head that ends in one of these ways, which is sent before a later band fails.
const ANSWER_REFUSED: &[Case<'static>] = &[UNREAD, MENDED, IMAGE];

const ANSWER_CUT: &[Case<'static>] = &[
    (
        Ask::Call(Verb::Get, WHOLE),
        Want::Front(IMAGE_HEAD, &SAMPLE_FILE),
    ),
    MENDED,
    IMAGE,
];

const ANSWER_SENT: &[Case<'static>] = &[IMAGE, MENDED, IMAGE];

const HALF_REFUSED: &[Case<'static>] = &[(Ask::Body(HALF), FAULT), MENDED, HALF_IS_WHOLE];

const HALF_SENT: &[Case<'static>] = &[HALF_IS_WHOLE, MENDED, HALF_IS_WHOLE];

/// A name, a node, and how a body ends there: first where one of the first reads fails, then where one of later ones does.
type Failing = (
    &'static str,
    Setup<'static>,
    &'static [&'static [Case<'static>]],
);

/// Images of the sample, of tiles and of blocks. All reads of one band come before its first byte is sent: none of them cuts.
static FAILING: [Failing; 6] = [
    (
        "whole, slowly",
        SLOWLY,
        &[SAMPLE_REFUSED, SAMPLE_CUT, SAMPLE_SENT],
    ),
    (
        "answer, slowly",
        SLOWLY,
        &[ANSWER_REFUSED, ANSWER_CUT, ANSWER_SENT],
    ),
    ("half, slowly", SLOWLY, &[HALF_REFUSED, HALF_SENT]),
    ("whole, at once", AT_ONCE, &[SAMPLE_REFUSED, SAMPLE_SENT]),
    ("answer, at once", AT_ONCE, &[ANSWER_REFUSED, ANSWER_SENT]),
    ("half, at once", AT_ONCE, &[HALF_REFUSED, HALF_SENT]),
];

/// The first read from this one on, of 63, whose failure ends a body in another way than this, or doesn't leave it whole once the source
/// is mended. Else the 64th.
fn first_other<R: Threads + Wait + Clock + Sync + AllocGlobal>(
    rt: &R,
    setup: &Setup<'_>,
    cases: &[Case<'_>],
    from: u64,
) -> u64 {
    for k in from..64 {
        if !are_right(rt, &Setup { k, ..*setup }, cases) {
            return k;
        }
    }
    64
}

/// Whether a body ends in these ways, one after another, as the first read that fails is a later one, and in no other.
fn ends_in_turn<R: Threads + Wait + Clock + Sync + AllocGlobal>(rt: &R, failing: &Failing) -> bool {
    let (_, setup, ends) = failing;
    let mut from = 1u64;
    for cases in *ends {
        let next = first_other(rt, setup, cases, from);
        if next == from {
            return false;
        }
        from = next;
    }
    is_same(&from, &64)
}

#[test]
fn first_fault_is_answered_and_a_later_one_cuts_until_the_source_is_mended(rt: HostRuntime) {
    for failing in &FAILING {
        assert!(rt; ends_in_turn(&rt, failing), "{}", failing.0);
    }
}

/// A node of so many workers that make the whole sample, the first load being held for so many turns.
const HOLDING: Setup<'static> = Setup {
    rows: 64,
    turns: 10_000,
    ..SLOWLY
};

const SAMPLE_IS_LONG: Case<'static> = (Ask::Body(WHOLE), Want::Whole(200, Text::Long(190, &STEPS)));

/// Whether the first load went on alone.
const IS_MET: &[Case<'static>] = &[SAMPLE_IS_LONG, (Ask::Alone, IS_NOT_SO)];

const IS_ALONE: &[Case<'static>] = &[SAMPLE_IS_LONG, (Ask::Alone, IS_SO)];

static MEETINGS: [Table; 4] = [
    (
        "2",
        Setup {
            workers: 2,
            ..HOLDING
        },
        IS_MET,
    ),
    (
        "3",
        Setup {
            workers: 3,
            ..HOLDING
        },
        IS_MET,
    ),
    (
        "4",
        Setup {
            workers: 4,
            ..HOLDING
        },
        IS_MET,
    ),
    (
        "1",
        Setup {
            turns: 50,
            ..HOLDING
        },
        IS_ALONE,
    ),
];

#[test]
fn workers_meet_and_one_meets_no_other(rt: HostRuntime) {
    all_are(&rt, &MEETINGS);
}

pub(crate) const MEAN: Case<'static> = (Ask::Body(ONE), Want::Whole(200, Text::Long(175, &[75])));

const EACH_ASKED_ONCE: Case<'static> = (Ask::Sums, Want::Booked(21, 21, 21));

const EACH_READ_ONCE: Case<'static> = (Ask::Reads, Want::Booked(16, 16, 0));

const MADE_ONCE: &[Case<'static>] = &[MEAN, EACH_ASKED_ONCE, EACH_READ_ONCE];

/// At one place and an edge of 1 the sample is one block of level 2. Below it stand 4 of level 1 and 16 of level 0: 21 in all, each asked
/// for once, by one worker, by two or by four, and each tile is read once.
static ASKED: [Table; 3] = [
    ("by one", Setup { edge: 1, ..AT_ONCE }, MADE_ONCE),
    (
        "by two",
        Setup {
            edge: 1,
            workers: 2,
            ..AT_ONCE
        },
        MADE_ONCE,
    ),
    (
        "by four",
        Setup {
            edge: 1,
            workers: 4,
            ..AT_ONCE
        },
        MADE_ONCE,
    ),
];

#[test]
fn parts_are_asked_for_once(rt: HostRuntime) {
    all_are(&rt, &ASKED);
}

/// The books of sums and of tiles whose calls each lead a flight that loads and lands: five, and four.
const FIVE: Book = Book {
    gets: 5,
    leads: 5,
    loads: 5,
    landed: 5,
    ..NO_CALLS
};

const FOUR: Book = Book {
    gets: 4,
    leads: 4,
    loads: 4,
    landed: 4,
    ..NO_CALLS
};

/// From empty caches half the sample is one block of level 1, made of four sums of level 0, each of one of the four tiles.
const HALF_IS_BOOKED: &[Case<'static>] = &[HALF_IS_WHOLE, (Ask::Books(FIVE, FOUR), IS_SO)];

static BOOKED: [Table; 3] = [
    ("by one", AT_ONCE, HALF_IS_BOOKED),
    (
        "by two",
        Setup {
            workers: 2,
            ..AT_ONCE
        },
        HALF_IS_BOOKED,
    ),
    (
        "by four",
        Setup {
            workers: 4,
            ..AT_ONCE
        },
        HALF_IS_BOOKED,
    ),
];

#[test]
fn half_of_the_sample_books_five_sums_and_four_tiles(rt: HostRuntime) {
    all_are(&rt, &BOOKED);
}

/// At one place and an edge of 1 this picture is a block of level 4, whose parts are shared out, and theirs: 341 blocks in all. The first
/// load of a tile is held for so many turns.
const HELD: Setup<'static> = Setup {
    file: &BROAD,
    edge: 1,
    turns: 10_000,
    ..AT_ONCE
};

const EACH_OF_ALL_ONCE: Case<'static> = (Ask::Sums, Want::Booked(341, 341, 341));

const SHARES: &[Case<'static>] = &[MEAN, (Ask::Alone, IS_NOT_SO), EACH_OF_ALL_ONCE];

/// By several workers another load comes while the first is held, though all tiles are of one block. Each part is asked for once.
static SHARED: [Table; 3] = [
    ("by two", Setup { workers: 2, ..HELD }, SHARES),
    ("by nine", Setup { workers: 9, ..HELD }, SHARES),
    (
        "by one",
        Setup { turns: 50, ..HELD },
        &[MEAN, (Ask::Alone, IS_SO), EACH_OF_ALL_ONCE],
    ),
];

#[test]
fn parts_of_one_block_are_made_by_several_workers(rt: HostRuntime) {
    all_are(&rt, &SHARED);
}

/// A quarter of this picture at one place.
const QUARTER: &[u8] = b"/iiif/a/0,0,8,8/1,1/0/default.tif";

const QUARTER_MEAN: Case<'static> = (
    Ask::Body(QUARTER),
    Want::Whole(200, Text::Long(175, &[75])),
);

/// It is planned with the level of the whole picture's block, 4, of which one part has pixels of the quarter: a block of level 3, the least
/// level whose parts are shared out. Below that stand 4, 16 and 64 blocks of levels 2 to 0: 86 in all, each asked for once.
const EACH_OF_QUARTER_ONCE: Case<'static> = (Ask::Sums, Want::Booked(86, 86, 86));

static QUARTER_SHARED: [Table; 2] = [
    (
        "by two",
        Setup { workers: 2, ..HELD },
        &[QUARTER_MEAN, (Ask::Alone, IS_NOT_SO), EACH_OF_QUARTER_ONCE],
    ),
    (
        "by one",
        Setup { turns: 50, ..HELD },
        &[QUARTER_MEAN, (Ask::Alone, IS_SO), EACH_OF_QUARTER_ONCE],
    ),
];

#[test]
fn parts_of_a_block_of_64_tiles_are_made_by_two_workers(rt: HostRuntime) {
    all_are(&rt, &QUARTER_SHARED);
}
