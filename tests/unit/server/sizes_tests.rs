//! Every region and every size up to twice the region's of small pictures, in nine turns and four qualities, beside a plain evaluation.

use crate::fixtures::is_same;
use crate::server::cases::{BY_FIVE, BY_ONE, BY_TWO, MOST_BYTES, NODE, Setup, Variant};
use crate::server::drawn::{Drawn, STEPS};
use crate::server::every::{Looks, images_of};
use crate::server::nodes::are_answered;
use iiif_pixel::Kind;
use iiif_tiff_write::OutKind;
use std::process::Abort;
use std::sync::Wait;
use std::thread::Threads;
use std::time::Clock;

const BITS_OF_12_PLACES: Drawn<'static> = Drawn {
    sides: [4, 3],
    kind: Kind::Gray,
    out: OutKind::Bitonal,
    samples: &[0, 255, 255, 0, 255, 0, 255, 255, 0, 0, 0, 255],
};

const DEEP_OF_9_PLACES: Drawn<'static> = Drawn {
    sides: [3, 3],
    kind: Kind::Gray,
    out: OutKind::Gray16,
    samples: &[0, 65_535, 32_768, 32_767, 257, 255, 256, 1, 40_000],
};

const REDS: Drawn<'static> = Drawn {
    sides: [3, 2],
    kind: Kind::Rgb,
    out: OutKind::Rgb,
    samples: &[
        2, 0, 0, 0, 255, 7, 128, 127, 126, 255, 255, 255, 13, 77, 201, 90, 14, 3,
    ],
};

const DEEP_REDS: Drawn<'static> = Drawn {
    sides: [3, 2],
    kind: Kind::Rgb,
    out: OutKind::Rgb16,
    samples: &[
        2, 0, 0, 0, 65_535, 7, 32_768, 32_767, 32_766, 65_535, 65_535, 65_535, 513, 19_712, 51_456,
        23_040, 3_584, 770,
    ],
};

const GRAYS: Drawn<'static> = Drawn {
    sides: [3, 2],
    kind: Kind::Gray,
    out: OutKind::Gray,
    samples: &[0, 10, 255, 40, 128, 127],
};

const BITS: Drawn<'static> = Drawn {
    sides: [2, 3],
    kind: Kind::Gray,
    out: OutKind::Bitonal,
    samples: &[0, 255, 255, 255, 0, 255],
};

const DEEP_GRAYS: Drawn<'static> = Drawn {
    sides: [2, 3],
    kind: Kind::Gray,
    out: OutKind::Gray16,
    samples: &[0, 65_535, 32_768, 257, 255, 40_000],
};

/// Images that nodes answer as the plain evaluation gives them.
struct Comparison {
    what: &'static str,
    picture: Drawn<'static>,
    /// Up to how many times their regions' sizes the images are. Up to twice they are four times as many as up to once.
    times: u64,
    /// Their turns and qualities.
    looks: Looks,
    /// How many images that are.
    count: usize,
    /// The nodes that answer them.
    variants: &'static [Variant],
}

/// Whether the images are so many, and a new node of each of these variants answers all of them as the plain evaluation gives them. It
/// scales up only where some are above their regions' sizes.
fn is_compared<R: Threads + Wait + Clock + Sync + AllocGlobal>(
    rt: &R,
    comparison: &Comparison,
) -> Option<bool> {
    let Comparison {
        picture,
        times,
        looks,
        count,
        variants,
        ..
    } = comparison;
    let file = picture.file(rt.alloc())?;
    let images = images_of(rt.alloc(), picture.plain(), *times, *looks)?;
    let base = Setup {
        file: &file,
        upscale: *times > 1,
        ..NODE
    };
    Some(is_same(&images.len(), count) && are_answered(rt, &base, variants, &images))
}

/// Compares all of these.
fn compare<R: Threads + Wait + Clock + Sync + AllocGlobal + Abort>(
    rt: &R,
    comparisons: &[Comparison],
) {
    for comparison in comparisons {
        assert!(rt;
            is_compared(rt, comparison) == Some(true),
            "{}",
            comparison.what
        );
    }
}

/// Nodes of one worker, with tiles of the edges 1 and 2 and a cache that keeps all.
const SMALL_TILES: &[Variant] = &[(1, 64, 1, MOST_BYTES), (2, 64, 1, MOST_BYTES)];

/// Nodes of one worker, with tiles of the edges 3 to 5 and a cache that keeps all.
const LARGE_TILES: &[Variant] = &[
    (3, 64, 1, MOST_BYTES),
    (4, 64, 1, MOST_BYTES),
    (5, 64, 1, MOST_BYTES),
];

static GRAYS_IN_SMALL_TILES: [Comparison; 2] = [
    Comparison {
        what: "4 by 4 grays",
        picture: STEPS,
        times: 2,
        looks: Looks::InTurn(7),
        count: 1600,
        variants: SMALL_TILES,
    },
    Comparison {
        what: "4 by 4 grays, not above",
        picture: STEPS,
        times: 1,
        looks: Looks::InTurn(14),
        count: 400,
        variants: SMALL_TILES,
    },
];

#[test]
fn gray_picture_of_4_by_4_in_small_tiles(rt: HostRuntime) {
    compare(&rt, &GRAYS_IN_SMALL_TILES);
}

static GRAYS_IN_LARGE_TILES: [Comparison; 1] = [Comparison {
    what: "4 by 4 grays",
    picture: STEPS,
    times: 2,
    looks: Looks::InTurn(21),
    count: 1600,
    variants: LARGE_TILES,
}];

#[test]
fn gray_picture_of_4_by_4_in_large_tiles(rt: HostRuntime) {
    compare(&rt, &GRAYS_IN_LARGE_TILES);
}

static OTHERS_IN_TILES: [Comparison; 7] = [
    Comparison {
        what: "colors",
        picture: REDS,
        times: 2,
        looks: Looks::InTurn(28),
        count: 160,
        variants: SMALL_TILES,
    },
    Comparison {
        what: "colors",
        picture: REDS,
        times: 2,
        looks: Looks::InTurn(35),
        count: 160,
        variants: LARGE_TILES,
    },
    Comparison {
        what: "colors, not above",
        picture: REDS,
        times: 1,
        looks: Looks::InTurn(6),
        count: 40,
        variants: LARGE_TILES,
    },
    Comparison {
        what: "deep colors",
        picture: DEEP_REDS,
        times: 2,
        looks: Looks::InTurn(13),
        count: 160,
        variants: SMALL_TILES,
    },
    Comparison {
        what: "deep colors",
        picture: DEEP_REDS,
        times: 2,
        looks: Looks::InTurn(20),
        count: 160,
        variants: LARGE_TILES,
    },
    Comparison {
        what: "deep grays",
        picture: DEEP_OF_9_PLACES,
        times: 2,
        looks: Looks::InTurn(27),
        count: 400,
        variants: SMALL_TILES,
    },
    Comparison {
        what: "deep grays",
        picture: DEEP_OF_9_PLACES,
        times: 2,
        looks: Looks::InTurn(34),
        count: 400,
        variants: LARGE_TILES,
    },
];

#[test]
fn colors_and_pictures_of_16_bits_in_tiles(rt: HostRuntime) {
    compare(&rt, &OTHERS_IN_TILES);
}

static BITS_IN_TILES: [Comparison; 2] = [
    Comparison {
        what: "bits",
        picture: BITS_OF_12_PLACES,
        times: 2,
        looks: Looks::InTurn(5),
        count: 800,
        variants: SMALL_TILES,
    },
    Comparison {
        what: "bits",
        picture: BITS_OF_12_PLACES,
        times: 2,
        looks: Looks::InTurn(12),
        count: 800,
        variants: LARGE_TILES,
    },
];

#[test]
fn picture_of_bits_in_tiles(rt: HostRuntime) {
    compare(&rt, &BITS_IN_TILES);
}

static GRAYS_BY_ONE: [Comparison; 3] = [
    Comparison {
        what: "grays",
        picture: GRAYS,
        times: 2,
        looks: Looks::InTurn(19),
        count: 160,
        variants: BY_ONE,
    },
    Comparison {
        what: "bits",
        picture: BITS,
        times: 2,
        looks: Looks::InTurn(26),
        count: 160,
        variants: BY_ONE,
    },
    Comparison {
        what: "deep grays",
        picture: DEEP_GRAYS,
        times: 2,
        looks: Looks::InTurn(33),
        count: 160,
        variants: BY_ONE,
    },
];

#[test]
fn grays_and_bits_by_one_worker(rt: HostRuntime) {
    compare(&rt, &GRAYS_BY_ONE);
}

static COLORS_BY_ONE: [Comparison; 2] = [
    Comparison {
        what: "colors",
        picture: REDS,
        times: 2,
        looks: Looks::InTurn(4),
        count: 160,
        variants: BY_ONE,
    },
    Comparison {
        what: "deep colors",
        picture: DEEP_REDS,
        times: 2,
        looks: Looks::InTurn(11),
        count: 160,
        variants: BY_ONE,
    },
];

#[test]
fn colors_by_one_worker(rt: HostRuntime) {
    compare(&rt, &COLORS_BY_ONE);
}

static GRAYS_BY_TWO: [Comparison; 2] = [
    Comparison {
        what: "grays",
        picture: GRAYS,
        times: 2,
        looks: Looks::InTurn(18),
        count: 160,
        variants: BY_TWO,
    },
    Comparison {
        what: "bits",
        picture: BITS,
        times: 2,
        looks: Looks::InTurn(25),
        count: 160,
        variants: BY_TWO,
    },
];

#[test]
fn grays_and_bits_by_two_workers(rt: HostRuntime) {
    compare(&rt, &GRAYS_BY_TWO);
}

static COLORS_BY_TWO: [Comparison; 2] = [
    Comparison {
        what: "colors",
        picture: REDS,
        times: 2,
        looks: Looks::InTurn(32),
        count: 160,
        variants: BY_TWO,
    },
    Comparison {
        what: "deep grays",
        picture: DEEP_GRAYS,
        times: 2,
        looks: Looks::InTurn(3),
        count: 160,
        variants: BY_TWO,
    },
];

#[test]
fn colors_and_deep_grays_by_two_workers(rt: HostRuntime) {
    compare(&rt, &COLORS_BY_TWO);
}

static DEEP_COLORS_BY_TWO: [Comparison; 1] = [Comparison {
    what: "deep colors",
    picture: DEEP_REDS,
    times: 2,
    looks: Looks::InTurn(10),
    count: 160,
    variants: BY_TWO,
}];

#[test]
fn deep_colors_by_two_workers(rt: HostRuntime) {
    compare(&rt, &DEEP_COLORS_BY_TWO);
}

static GRAYS_BY_FIVE: [Comparison; 1] = [Comparison {
    what: "grays",
    picture: GRAYS,
    times: 2,
    looks: Looks::InTurn(17),
    count: 160,
    variants: BY_FIVE,
}];

#[test]
fn grays_by_five_workers(rt: HostRuntime) {
    compare(&rt, &GRAYS_BY_FIVE);
}

static BITS_BY_FIVE: [Comparison; 1] = [Comparison {
    what: "bits",
    picture: BITS,
    times: 2,
    looks: Looks::InTurn(24),
    count: 160,
    variants: BY_FIVE,
}];

#[test]
fn bits_by_five_workers(rt: HostRuntime) {
    compare(&rt, &BITS_BY_FIVE);
}

static COLORS_BY_FIVE: [Comparison; 1] = [Comparison {
    what: "colors",
    picture: REDS,
    times: 2,
    looks: Looks::InTurn(31),
    count: 160,
    variants: BY_FIVE,
}];

#[test]
fn colors_by_five_workers(rt: HostRuntime) {
    compare(&rt, &COLORS_BY_FIVE);
}

static DEEP_GRAYS_BY_FIVE: [Comparison; 1] = [Comparison {
    what: "deep grays",
    picture: DEEP_GRAYS,
    times: 2,
    looks: Looks::InTurn(2),
    count: 160,
    variants: BY_FIVE,
}];

#[test]
fn deep_grays_by_five_workers(rt: HostRuntime) {
    compare(&rt, &DEEP_GRAYS_BY_FIVE);
}

static DEEP_COLORS_BY_FIVE: [Comparison; 1] = [Comparison {
    what: "deep colors",
    picture: DEEP_REDS,
    times: 2,
    looks: Looks::InTurn(9),
    count: 160,
    variants: BY_FIVE,
}];

#[test]
fn deep_colors_by_five_workers(rt: HostRuntime) {
    compare(&rt, &DEEP_COLORS_BY_FIVE);
}

/// A node of two workers, with bands of one row, tiles of the edge 2 and a cache that has room for little.
const ONE_NODE: &[Variant] = &[(2, 1, 2, 100)];

static COLORS_IN_ALL_LOOKS: [Comparison; 1] = [Comparison {
    what: "colors",
    picture: REDS,
    times: 2,
    looks: Looks::All,
    count: 160 * 36,
    variants: ONE_NODE,
}];

#[test]
fn colors_in_each_turn_and_quality(rt: HostRuntime) {
    compare(&rt, &COLORS_IN_ALL_LOOKS);
}

static BITS_IN_ALL_LOOKS: [Comparison; 1] = [Comparison {
    what: "bits",
    picture: BITS,
    times: 2,
    looks: Looks::All,
    count: 160 * 36,
    variants: ONE_NODE,
}];

#[test]
fn bits_in_each_turn_and_quality(rt: HostRuntime) {
    compare(&rt, &BITS_IN_ALL_LOOKS);
}

static DEEP_COLORS_IN_ALL_LOOKS: [Comparison; 1] = [Comparison {
    what: "deep colors",
    picture: DEEP_REDS,
    times: 2,
    looks: Looks::All,
    count: 160 * 36,
    variants: ONE_NODE,
}];

#[test]
fn deep_colors_in_each_turn_and_quality(rt: HostRuntime) {
    compare(&rt, &DEEP_COLORS_IN_ALL_LOOKS);
}

static GRAYS_IN_ALL_LOOKS: [Comparison; 1] = [Comparison {
    what: "4 by 4 grays",
    picture: STEPS,
    times: 2,
    looks: Looks::All,
    count: 1600 * 36,
    variants: ONE_NODE,
}];

#[test]
fn gray_picture_of_4_by_4_in_each_turn_and_quality(rt: HostRuntime) {
    compare(&rt, &GRAYS_IN_ALL_LOOKS);
}
