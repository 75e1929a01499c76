//! Steps at a node: each public call, owners that are asked, sources that fail, caches that keep nothing, and growths of memory that are
//! refused.

use crate::fixtures::books::NO_CALLS;
use crate::fixtures::is_same;
use crate::group::bars::Bar;
use crate::group::calls::{Call, FIRST, HALVED, LAST, NONE, SECOND, Step, WHOLE};
use crate::group::cases::{Case, first_wrong};
use crate::group::meeting_tests::{FOR_ONE_TILE, JOINED};
use crate::group::nodes::{FIVE, FOUR, ONE, Owner, ROOMY, SEVEN, SIX, Setup, THREE, TWO, way_to};
use crate::group::peers::GIVEN;
use crate::group::runs::Stages;
use crate::group::scenes::{QUIET, Scene, Seen, played};
use iiif_keys::Fault;
use iiif_source::ReadFault;
use iiif_tables::Book;
use std::test::Fail;

/// Two calls that share a load, and a third that leads again.
const JOINED_AND_ONE: Book = Book {
    gets: 3,
    joins: 1,
    ..TWO
};

/// So many calls, each of which led and loaded.
const TEN: Book = Book {
    gets: 10,
    leads: 10,
    loads: 10,
    landed: 10,
    ..NO_CALLS
};

const ELEVEN: Book = Book {
    gets: 11,
    leads: 11,
    loads: 11,
    landed: 11,
    ..NO_CALLS
};

/// The fault of the first read, which is of the samples.
const FUSED: Fault = Fault::Source(ReadFault {
    place: 8,
    cause: ReadFault::FUSE,
});

static EACH_CALL: [Case; 4] = [
    Case {
        what: "Tiles that are kept aren't read again, however they are called for.",
        owner: Owner::Itself,
        fuse: 99,
        bytes: ROOMY,
        reads_meet: false,
        asks_meet: false,
        scene: Scene::Runs(Stages {
            first: &[
                (Step::Tile(Call::Get, (0, 0)), Ok(FIRST)),
                (Step::Tile(Call::Begin, (1, 0)), Ok(SECOND)),
                (Step::Tile(Call::GetLocal, (1, 1)), Ok(LAST)),
            ],
            then: &[
                (Step::Tile(Call::Begin, (0, 0)), Ok(FIRST)),
                (Step::Tile(Call::GetLocal, (1, 0)), Ok(SECOND)),
                (Step::Tile(Call::Get, (1, 1)), Ok(LAST)),
                (Step::Tile(Call::Get, (0, 0)), Ok(FIRST)),
            ],
            hands_in: false,
        }),
        seen: Seen {
            books: (THREE, NO_CALLS),
            tiles: (
                Book {
                    gets: 7,
                    hits: 4,
                    ..THREE
                },
                7,
            ),
            done: ([1, 1, 0, 1], 3),
            ..QUIET
        },
    },
    Case {
        what: "Each part of sums is asked once, and then the sums are kept.",
        owner: Owner::Itself,
        fuse: 99,
        bytes: ROOMY,
        reads_meet: false,
        asks_meet: false,
        scene: Scene::Runs(Stages {
            first: &[(WHOLE, Ok(HALVED))],
            then: &[(Step::Mend, Ok(NONE)), (WHOLE, Ok(HALVED))],
            hands_in: false,
        }),
        seen: Seen {
            books: (FOUR, FIVE),
            tiles: (FOUR, 4),
            sums: (
                Book {
                    gets: 6,
                    hits: 1,
                    ..FIVE
                },
                6,
            ),
            done: ([1, 1, 1, 1], 9),
            ..QUIET
        },
    },
    Case {
        what: "The fault of a source is not kept.",
        owner: Owner::Itself,
        fuse: 1,
        bytes: ROOMY,
        reads_meet: false,
        asks_meet: false,
        scene: Scene::Runs(Stages {
            first: &[(WHOLE, Err(FUSED))],
            then: &[(Step::Mend, Ok(NONE)), (WHOLE, Ok(HALVED))],
            hands_in: false,
        }),
        // The whole and its first part end with the fault, as the part's tile does; then all is loaded.
        seen: Seen {
            books: (Book { faults: 1, ..ONE }, Book { faults: 2, ..TWO }),
            tiles: (Book { faults: 1, ..FIVE }, 5),
            sums: (Book { faults: 2, ..SEVEN }, 7),
            done: ([2, 1, 1, 1], 12),
            ..QUIET
        },
    },
    Case {
        what: "A tile and sums are loaded, and got by this node alone.",
        owner: Owner::Itself,
        fuse: 99,
        bytes: ROOMY,
        reads_meet: false,
        asks_meet: false,
        scene: Scene::Runs(Stages {
            first: &[
                (Step::Tile(Call::Load, (1, 0)), Ok(SECOND)),
                (Step::Tile(Call::GetLocal, (1, 0)), Ok(SECOND)),
            ],
            then: &[
                (Step::Sums(Call::Load, 1, 0), Ok(HALVED)),
                (Step::Sums(Call::GetLocal, 1, 0), Ok(HALVED)),
                (Step::Sums(Call::GetLocal, 1, 0), Ok(HALVED)),
            ],
            hands_in: false,
        }),
        seen: Seen {
            books: (ONE, NO_CALLS),
            // A tile is got, and then the four below the sums, of which that is one.
            tiles: (
                Book {
                    gets: 5,
                    hits: 1,
                    ..FOUR
                },
                5,
            ),
            // The four parts are loaded for a load, and hit for a flight. Then the sums are hit, and no part is asked for.
            sums: (
                Book {
                    gets: 10,
                    hits: 5,
                    ..FIVE
                },
                10,
            ),
            done: ([1, 2, 1, 1], 9),
            ..QUIET
        },
    },
];

#[test]
fn each_call_gives_its_value_and_shares_come_home(rt: HostRuntime) {
    let wrong = first_wrong(&rt, rt.alloc(), &EACH_CALL);
    assert!(rt; wrong.is_empty(), "{wrong}");
}

/// A cache of one byte has room for no entry, as the key alone is longer: each call leads, and loads.
static NEVER_KEPT: [Case; 2] = [
    Case {
        what: "A tile that isn't kept is read for each call, and so are those below sums.",
        owner: Owner::Itself,
        fuse: 99,
        bytes: 1,
        reads_meet: false,
        asks_meet: false,
        scene: Scene::Runs(Stages {
            first: &[
                (Step::Tile(Call::Begin, (0, 0)), Ok(FIRST)),
                (Step::Tile(Call::Get, (0, 0)), Ok(FIRST)),
                (Step::Tile(Call::GetLocal, (0, 0)), Ok(FIRST)),
            ],
            then: &[(WHOLE, Ok(HALVED)), (WHOLE, Ok(HALVED))],
            hands_in: false,
        }),
        // Three calls, and then twice the whole, its four parts, and the tile of each.
        seen: Seen {
            books: (THREE, NO_CALLS),
            tiles: (ELEVEN, 11),
            sums: (TEN, 10),
            done: ([5, 2, 2, 2], 21),
            ..QUIET
        },
    },
    Case {
        what: "Two calls that meet share one load, and a third, which finds nothing kept, leads again.",
        owner: Owner::Itself,
        fuse: 99,
        bytes: 1,
        reads_meet: false,
        asks_meet: false,
        scene: Scene::Meets(FOR_ONE_TILE),
        seen: Seen {
            are_same: (true, false),
            books: (JOINED, NO_CALLS),
            tiles: (JOINED_AND_ONE, 0),
            done: ([2, 0, 0, 0], 2),
            ..QUIET
        },
    },
];

#[test]
fn cache_of_one_byte_keeps_nothing_and_each_call_has_its_value(rt: HostRuntime) {
    let wrong = first_wrong(&rt, rt.alloc(), &NEVER_KEPT);
    assert!(rt; wrong.is_empty(), "{wrong}");
}

/// The owner of the keys of a node, and a call for the tile (0, 0) of `a`.
static OWNERS: [Case; 5] = [
    Case {
        what: "A node loads what it owns.",
        owner: Owner::Itself,
        fuse: 99,
        bytes: ROOMY,
        reads_meet: false,
        asks_meet: false,
        scene: Scene::Runs(Stages {
            first: &[(Step::Tile(Call::Begin, (0, 0)), Ok(FIRST))],
            then: &[],
            hands_in: false,
        }),
        seen: Seen {
            books: (ONE, NO_CALLS),
            tiles: (ONE, 1),
            done: ([1, 0, 0, 0], 1),
            ..QUIET
        },
    },
    Case {
        what: "What the owner gives is taken.",
        owner: Owner::Gives,
        fuse: 99,
        bytes: ROOMY,
        reads_meet: false,
        asks_meet: false,
        scene: Scene::Runs(Stages {
            first: &[(Step::Tile(Call::Begin, (0, 0)), Ok(GIVEN))],
            then: &[],
            hands_in: false,
        }),
        seen: Seen {
            books: (Book { peer: 1, ..ONE }, NO_CALLS),
            tiles: (Book { peer: 1, ..ONE }, 1),
            ..QUIET
        },
    },
    Case {
        what: "No owner is asked by a node alone.",
        owner: Owner::Gives,
        fuse: 99,
        bytes: ROOMY,
        reads_meet: false,
        asks_meet: false,
        scene: Scene::Runs(Stages {
            first: &[(Step::Tile(Call::BeginLocal, (0, 0)), Ok(FIRST))],
            then: &[],
            hands_in: false,
        }),
        seen: Seen {
            books: (ONE, NO_CALLS),
            tiles: (ONE, 1),
            done: ([1, 0, 0, 0], 1),
            ..QUIET
        },
    },
    Case {
        what: "A tile of another shape leads to a load.",
        owner: Owner::GivesWide,
        fuse: 99,
        bytes: ROOMY,
        reads_meet: false,
        asks_meet: false,
        scene: Scene::Runs(Stages {
            first: &[(Step::Tile(Call::Begin, (0, 0)), Ok(FIRST))],
            then: &[],
            hands_in: false,
        }),
        seen: Seen {
            books: (TWO, NO_CALLS),
            tiles: (TWO, 2),
            done: ([1, 0, 0, 0], 1),
            ..QUIET
        },
    },
    Case {
        what: "A refusal leads to a load.",
        owner: Owner::Refuses,
        fuse: 99,
        bytes: ROOMY,
        reads_meet: false,
        asks_meet: false,
        scene: Scene::Runs(Stages {
            first: &[(Step::Tile(Call::Begin, (0, 0)), Ok(FIRST))],
            then: &[],
            hands_in: false,
        }),
        seen: Seen {
            books: (TWO, NO_CALLS),
            tiles: (TWO, 2),
            done: ([1, 0, 0, 0], 1),
            ..QUIET
        },
    },
];

#[test]
fn owner_is_asked_and_a_bad_reply_leads_to_a_load(rt: HostRuntime) {
    let wrong = first_wrong(&rt, rt.alloc(), &OWNERS);
    assert!(rt; wrong.is_empty(), "{wrong}");
}

/// Whether each call is counted once, and each flight has landed.
fn is_settled(book: &Book) -> bool {
    let calls = book.hits.saturating_add(book.joins);
    is_same(&calls.saturating_add(book.leads), &book.gets)
        && is_same(&book.leads, &book.landed)
        && is_same(&book.again_hits.saturating_add(book.loads), &book.landed)
        && book.faults <= book.loads
}

/// The sums of the whole of `a`, twice.
static TWICE: Scene = Scene::Runs(Stages {
    first: &[(WHOLE, Ok(HALVED))],
    then: &[(WHOLE, Ok(HALVED))],
    hands_in: true,
});

/// The book of the sums where no growth was refused: the second call is a hit.
const KEPT: Book = Book {
    gets: 6,
    hits: 1,
    ..FIVE
};

/// Their book where the cache wanted memory for the picture's sums, which were answered all the same: the second call makes them anew of
/// its parts, which are kept.
const ANEW: Book = Book {
    gets: 10,
    hits: 4,
    ..SIX
};

/// Whether all is right; some of the sums were hit by the second call; no answer wanted memory, or the books are those of that; each
/// tile was read once then; and the calls' pass had its share when both were handed in, where none had come home before.
fn facts(seen: &Seen) -> [bool; 5] {
    let (tiles, sums) = (&seen.tiles.0, &seen.sums.0);
    [
        seen.is_right && is_settled(tiles) && is_settled(sums),
        seen.books.1.hits < sums.hits,
        seen.is_refused || *tiles == FOUR && (*sums == KEPT || *sums == ANEW),
        seen.is_refused || seen.done.0 == [1, 1, 1, 1],
        is_same(&seen.sums.1, &0),
    ]
}

#[test]
fn sums_and_books_are_right_after_a_refused_growth(rt: HostRuntime) -> Result<(), Fail> {
    let open = Bar::new(true);
    let setup = Setup {
        fuse: 99,
        bytes: ROOMY,
        meets: false,
        stands: true,
        way: way_to(&Owner::Itself, &open),
        gate: &open,
        crossing: None,
    };
    let facts = facts(&played(&rt, rt.alloc(), &setup, &TWICE)?);
    assert!(rt; is_same(&facts, &[true; 5]), "{facts:?}");
    Ok(())
}
