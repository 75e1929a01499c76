//! Two calls at once: one load for both, also of a block whose parts its caller gets; answers while another is held at the gate or asks
//! the owner; a fault that both are told; and reads of a source that overlap, since nothing is locked there.

use crate::fixtures::books::NO_CALLS;
use crate::group::calls::{Answer, Call, FIRST, HALVED, SECOND, Step};
use crate::group::cases::{Case, first_wrong};
use crate::group::meetings::Meeting;
use crate::group::nodes::{FOUR, ONE, Owner, ROOMY, THREE, TWO};
use crate::group::peers::GIVEN;
use crate::group::scenes::{QUIET, Scene, Seen};
use iiif_keys::Fault;
use iiif_source::ReadFault;
use iiif_tables::Book;

/// The fault of the first read, which is of the samples.
const FUSED: Answer = Err(Fault::Source(ReadFault {
    place: 8,
    cause: ReadFault::FUSE,
}));

/// Two calls for the tile (0, 0), of which one joins the other, and a third behind them.
pub(crate) const FOR_ONE_TILE: Meeting = Meeting {
    call: Call::Begin,
    columns: (0, 0),
    joins: true,
    mends: false,
    answers: (Ok(FIRST), Ok(FIRST), Ok(FIRST)),
};

/// Two calls, of which one led and loaded.
pub(crate) const JOINED: Book = Book {
    gets: 2,
    joins: 1,
    ..ONE
};

static MEETINGS: [Case; 5] = [
    Case {
        what: "Two calls for one key share one load.",
        owner: Owner::Itself,
        fuse: 99,
        bytes: ROOMY,
        reads_meet: false,
        asks_meet: false,
        scene: Scene::Meets(FOR_ONE_TILE),
        seen: Seen {
            are_same: (true, true),
            books: (JOINED, NO_CALLS),
            tiles: (
                Book {
                    gets: 3,
                    hits: 1,
                    joins: 1,
                    ..ONE
                },
                0,
            ),
            done: ([1, 0, 0, 0], 1),
            ..QUIET
        },
    },
    Case {
        what: "A call is answered while another is held at the gate.",
        owner: Owner::Itself,
        fuse: 99,
        bytes: ROOMY,
        reads_meet: false,
        asks_meet: false,
        scene: Scene::Meets(Meeting {
            call: Call::Begin,
            columns: (0, 1),
            joins: false,
            mends: false,
            answers: (Ok(FIRST), Ok(SECOND), Ok(FIRST)),
        }),
        seen: Seen {
            books: (TWO, NO_CALLS),
            tiles: (
                Book {
                    gets: 3,
                    hits: 1,
                    ..TWO
                },
                0,
            ),
            done: ([1, 1, 0, 0], 2),
            ..QUIET
        },
    },
    Case {
        what: "Who joins a call whose owner refused has the load, whose own flight is what is kept.",
        owner: Owner::Refuses,
        fuse: 99,
        bytes: ROOMY,
        reads_meet: false,
        asks_meet: false,
        scene: Scene::Meets(Meeting {
            call: Call::Begin,
            columns: (1, 1),
            joins: true,
            mends: false,
            answers: (Ok(SECOND), Ok(SECOND), Ok(SECOND)),
        }),
        seen: Seen {
            are_same: (true, false),
            books: (
                Book {
                    gets: 3,
                    joins: 1,
                    ..TWO
                },
                NO_CALLS,
            ),
            tiles: (
                Book {
                    gets: 4,
                    hits: 1,
                    joins: 1,
                    ..TWO
                },
                0,
            ),
            done: ([0, 1, 0, 0], 1),
            ..QUIET
        },
    },
    // Nothing is loaded here, so none comes to the gate.
    Case {
        what: "Two asks of the owner overlap.",
        owner: Owner::Gives,
        fuse: 99,
        bytes: ROOMY,
        reads_meet: false,
        asks_meet: true,
        scene: Scene::Meets(Meeting {
            call: Call::Begin,
            columns: (0, 1),
            joins: false,
            mends: false,
            answers: (Ok(GIVEN), Ok(GIVEN), Ok(GIVEN)),
        }),
        seen: Seen {
            books: (Book { peer: 2, ..TWO }, NO_CALLS),
            tiles: (Book { peer: 3, ..THREE }, 0),
            ..QUIET
        },
    },
    Case {
        what: "A source's fault is told to both, and isn't kept: the call after it loads again.",
        owner: Owner::Itself,
        fuse: 1,
        bytes: ROOMY,
        reads_meet: false,
        asks_meet: false,
        scene: Scene::Meets(Meeting {
            call: Call::Get,
            columns: (0, 0),
            joins: true,
            mends: true,
            answers: (FUSED, FUSED, Ok(FIRST)),
        }),
        seen: Seen {
            are_same: (true, false),
            books: (
                Book {
                    gets: 2,
                    joins: 1,
                    faults: 1,
                    ..ONE
                },
                NO_CALLS,
            ),
            tiles: (
                Book {
                    gets: 3,
                    joins: 1,
                    faults: 1,
                    ..TWO
                },
                0,
            ),
            done: ([2, 0, 0, 0], 2),
            ..QUIET
        },
    },
];

#[test]
fn calls_that_meet_share_one_load_and_no_other_waits(rt: HostRuntime) {
    let wrong = first_wrong(&rt, rt.alloc(), &MEETINGS);
    assert!(rt; wrong.is_empty(), "{wrong}");
}

/// Four calls, of which three join the one that leads.
const CROWD: Book = Book {
    gets: 4,
    joins: 3,
    ..ONE
};

static CROWDS: [Case; 2] = [
    Case {
        what: "Three calls that join a load read nothing, and pass no gate.",
        owner: Owner::Itself,
        fuse: 99,
        bytes: ROOMY,
        reads_meet: false,
        asks_meet: false,
        scene: Scene::Crowds(Meeting {
            call: Call::Get,
            columns: (1, 1),
            joins: true,
            mends: false,
            answers: (Ok(SECOND), Ok(SECOND), Ok(SECOND)),
        }),
        seen: Seen {
            books: (CROWD, NO_CALLS),
            done: ([0, 1, 0, 0], 1),
            ..QUIET
        },
    },
    Case {
        what: "Three calls that join a load are told its fault, and the source is read once.",
        owner: Owner::Itself,
        fuse: 1,
        bytes: ROOMY,
        reads_meet: false,
        asks_meet: false,
        scene: Scene::Crowds(Meeting {
            call: Call::Get,
            columns: (0, 0),
            joins: true,
            mends: false,
            answers: (FUSED, FUSED, FUSED),
        }),
        seen: Seen {
            books: (Book { faults: 1, ..CROWD }, NO_CALLS),
            done: ([1, 0, 0, 0], 1),
            ..QUIET
        },
    },
];

#[test]
fn calls_that_join_read_nothing_themselves(rt: HostRuntime) {
    let wrong = first_wrong(&rt, rt.alloc(), &CROWDS);
    assert!(rt; wrong.is_empty(), "{wrong}");
}

static AT_ONCE: [Case; 2] = [
    Case {
        what: "Loads of two tiles overlap.",
        owner: Owner::Itself,
        fuse: 99,
        bytes: ROOMY,
        reads_meet: true,
        asks_meet: false,
        scene: Scene::Overlaps(&[
            (Step::Tile(Call::Get, (0, 0)), Ok(FIRST)),
            (Step::Tile(Call::Get, (1, 0)), Ok(SECOND)),
        ]),
        seen: Seen {
            books: (TWO, NO_CALLS),
            done: ([1, 1, 0, 0], 2),
            ..QUIET
        },
    },
    // Each sample counts 2 by 2 times: a sample of the source is 2 long where a place of the result is 4.
    Case {
        what: "Loads of two blocks of level 0 overlap, each of which is made of its tile.",
        owner: Owner::Itself,
        fuse: 99,
        bytes: ROOMY,
        reads_meet: true,
        asks_meet: false,
        scene: Scene::Overlaps(&[
            (Step::Sums(Call::Get, 0, 0), Ok((1, [400, 0, 0, 0]))),
            (Step::Sums(Call::Get, 0, 1), Ok((1, [720, 0, 0, 0]))),
        ]),
        seen: Seen {
            books: (TWO, TWO),
            done: ([1, 1, 0, 0], 4),
            ..QUIET
        },
    },
];

#[test]
fn two_loads_of_tiles_and_of_sums_overlap(rt: HostRuntime) {
    let wrong = first_wrong(&rt, rt.alloc(), &AT_ONCE);
    assert!(rt; wrong.is_empty(), "{wrong}");
}

// One part of a block above level 1 has a pixel of `a`, and four of the block of level 1 have.
static PARTS: [Case; 2] = [
    Case {
        what: "Two calls for a block whose parts its caller gets have the sums, and each part is made once.",
        owner: Owner::Itself,
        fuse: 99,
        bytes: ROOMY,
        reads_meet: false,
        asks_meet: false,
        scene: Scene::Parts(Ok(HALVED)),
        seen: Seen {
            books: (
                FOUR,
                Book {
                    gets: 8,
                    joins: 1,
                    leads: 7,
                    loads: 7,
                    landed: 7,
                    ..NO_CALLS
                },
            ),
            done: ([1, 1, 1, 1], 11),
            ..QUIET
        },
    },
    Case {
        what: "The fault of a read is told to both, as that of the part and of the block.",
        owner: Owner::Itself,
        fuse: 1,
        bytes: ROOMY,
        reads_meet: false,
        asks_meet: false,
        scene: Scene::Parts(FUSED),
        seen: Seen {
            books: (
                Book { faults: 1, ..ONE },
                Book {
                    gets: 5,
                    joins: 1,
                    faults: 4,
                    ..FOUR
                },
            ),
            done: ([1, 0, 0, 0], 5),
            ..QUIET
        },
    },
];

#[test]
fn block_is_told_alike_to_both(rt: HostRuntime) {
    let wrong = first_wrong(&rt, rt.alloc(), &PARTS);
    assert!(rt; wrong.is_empty(), "{wrong}");
}
