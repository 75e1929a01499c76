//! Sums that grow up to the greatest, and the numbers that they are made of.

use crate::fixtures::{is_missing, is_same};
use crate::picture::cuts::{Cut, add, finishes_as, merge};
use crate::picture::pictures::{Picture, raster};
use iiif_area::averages::Averager;
use iiif_area::sums::Sums;
use iiif_area::weights::weight;
use iiif_pixel::{Dim, Kind, Rect, Span};
use std::alloc::Global;

/// Samples that are added to sums.
#[derive(Clone, Copy)]
enum More {
    /// A tile at a place of a region, which is scaled to a size.
    Tile(Picture, Rect, Rect, Dim),
    /// Sums of places.
    Sums(Rect, &'static [u64]),
}

/// Gray sums of these places, or 0 at each; what is added, one after another, and the sums then; the samples that come of them in
/// the end where they are over one place.
#[derive(Clone, Copy)]
struct Growth {
    places: Rect,
    sums: Option<&'static [u64]>,
    more: &'static [(More, &'static [u64])],
    samples: &'static [Span<'static>],
}

/// Gray sums of these places.
fn sums_from(alloc: Global, places: Rect, sums: &[u64]) -> Option<Sums> {
    if Kind::Gray.count(places.dim()) != Some(sums.len()) {
        return None;
    }
    let Ok(sums) = Vec::from_slice(alloc, sums) else {
        return None;
    };
    Some(Sums::from_parts(places, Kind::Gray, sums))
}

/// Gray sums of these places, 0 at each.
fn zeros(alloc: Global, places: Rect) -> Option<Sums> {
    let Ok(sums) = Sums::zero(alloc, places, Kind::Gray) else {
        return None;
    };
    Some(sums)
}

/// Adds a tile to sums, or says that it doesn't.
fn add_picture(alloc: Global, sums: &mut Sums, picture: Picture, at: Rect, cut: Cut) -> bool {
    match raster(alloc, picture) {
        Some(tile) => add(sums, &tile, at, cut),
        None => is_missing(),
    }
}

/// Adds sums to others, or says that it doesn't.
fn merge_these(alloc: Global, sums: &mut Sums, places: Rect, more: &[u64]) -> bool {
    match sums_from(alloc, places, more) {
        Some(more) => merge(sums, &more),
        None => is_missing(),
    }
}

/// Whether sums become these.
fn becomes(alloc: Global, sums: &mut Sums, more: More, want: &[u64]) -> bool {
    let is_put = match more {
        More::Tile(picture, at, region, size) => {
            let cut = Cut {
                region,
                size,
                edge: 1,
            };
            add_picture(alloc, sums, picture, at, cut)
        }
        More::Sums(places, more) => merge_these(alloc, sums, places, more),
    };
    is_put && is_same(&sums.sums(), &want)
}

/// Whether sums grow as they are to.
fn grows(alloc: Global, sums: &mut Sums, growth: Growth) -> bool {
    for (more, want) in growth.more {
        if !becomes(alloc, sums, *more, *want) {
            return false;
        }
    }
    for samples in growth.samples {
        if !finishes_as(sums, ONE_PLACE, growth.places, *samples) {
            return false;
        }
    }
    is_same(&sums.rect(), &growth.places)
}

/// Grows sums from the beginning.
fn is_grown(alloc: Global, growth: Growth) -> bool {
    let begun = match growth.sums {
        Some(sums) => sums_from(alloc, growth.places, sums),
        None => zeros(alloc, growth.places),
    };
    match begun {
        Some(mut sums) => grows(alloc, &mut sums, growth),
        None => is_missing(),
    }
}

const ONE: Dim = Dim { w: 1, h: 1 };

const ONE_PLACE: Rect = Rect {
    x: 0,
    y: 0,
    w: 1,
    h: 1,
};

const FIFTH: Rect = Rect {
    x: 5,
    y: 5,
    w: 1,
    h: 1,
};

const SEVEN: More = More::Tile(
    Picture(ONE, Kind::Gray, Span::Eight(&[7])),
    FIFTH,
    FIFTH,
    ONE,
);

const WHITE: Picture = Picture(ONE, Kind::Gray, Span::Sixteen(&[65_535]));

/// The greatest sides of a size.
const WIDEST: Dim = Dim {
    w: 16_384,
    h: 16_384,
};

/// Two places, of which the second is the last of all.
const LAST_TWO: More = More::Sums(
    Rect {
        x: u32::MAX - 1,
        y: u32::MAX,
        w: 2,
        h: 1,
    },
    &[7, 1],
);

static GROWTHS: [Growth; 5] = [
    // Tiles that are added are cut off at the greatest sum.
    Growth {
        places: ONE_PLACE,
        sums: Some(&[u64::MAX - 10]),
        more: &[
            (SEVEN, &[u64::MAX - 3]),
            (SEVEN, &[u64::MAX]),
            (SEVEN, &[u64::MAX]),
        ],
        samples: &[],
    },
    // The last place of 65,536 by 65,536 has 16,384 by 16,384 parts, all in the last result place.
    Growth {
        places: Rect {
            x: 16_382,
            y: 16_383,
            w: 2,
            h: 1,
        },
        sums: None,
        more: &[(
            More::Tile(
                WHITE,
                Rect {
                    x: 65_535,
                    y: 65_535,
                    w: 1,
                    h: 1,
                },
                Rect {
                    x: 0,
                    y: 0,
                    w: 65_536,
                    h: 65_536,
                },
                WIDEST,
            ),
            &[0, 17_591_917_608_960],
        )],
        samples: &[],
    },
    // One column to 16,384, and as many rows as there may be: each result place has one part of a column, and 16,384 parts of each row.
    Growth {
        places: Rect {
            x: 8191,
            y: 16_383,
            w: 2,
            h: 1,
        },
        sums: None,
        more: &[(
            More::Tile(
                WHITE,
                Rect {
                    x: 0,
                    y: u32::MAX - 1,
                    w: 1,
                    h: 1,
                },
                Rect {
                    x: 0,
                    y: 0,
                    w: 1,
                    h: u32::MAX,
                },
                WIDEST,
            ),
            &[1_073_725_440, 1_073_725_440],
        )],
        samples: &[],
    },
    // Sums from elsewhere are cut off at the greatest one, and so are the samples of that.
    Growth {
        places: Rect {
            x: u32::MAX,
            y: u32::MAX,
            w: 1,
            h: 1,
        },
        sums: Some(&[u64::MAX - 1]),
        more: &[(LAST_TWO, &[u64::MAX]), (LAST_TWO, &[u64::MAX])],
        samples: &[Span::Eight(&[255]), Span::Sixteen(&[65_535])],
    },
    // Of four places the other sums have the lower right one.
    Growth {
        places: Rect {
            x: u32::MAX - 2,
            y: u32::MAX - 1,
            w: 2,
            h: 2,
        },
        sums: None,
        more: &[(LAST_TWO, &[0, 0, 0, 7])],
        samples: &[],
    },
];

#[test]
fn sums_grow_up_to_the_greatest(rt: HostRuntime) {
    for (number, growth) in GROWTHS.iter().enumerate() {
        assert!(rt; is_grown(rt.alloc(), *growth), "growth {number}");
    }
}

/// Result and source columns, how many there are of these, and the weight.
static WEIGHTS: [([u32; 4], u64); 4] = [
    // 4 columns to 3: column 1 is shared by results 0 and 1, 1 part to 2
    ([0, 1, 4, 3], 1),
    ([1, 1, 4, 3], 2),
    ([1, 3, 4, 3], 0),
    ([u32::MAX; 4], 4_294_967_295),
];

#[test]
fn weights_are_overlaps(rt: HostRuntime) {
    for (number, ([i, x, a, c], want)) in WEIGHTS.iter().enumerate() {
        assert!(rt; is_same(&weight(*i, *x, *a, *c), want), "weight {number}");
    }
}

/// How many places, a sum over them, the greatest average, and the average.
static AVERAGES: [(u64, u64, u16, u16); 9] = [
    // 5 and 6 over 4 places: 1.25 and 1.5; 10 and 11 over 7: 1.43 and 1.57
    (4, 5, 255, 1),
    (4, 6, 255, 2),
    (4, 1024, 255, 255),
    (4, 1024, 65_535, 256),
    (7, 10, 255, 1),
    (7, 11, 255, 2),
    // 65,534.5 over the most places, and a part less; the greatest sum
    (1 << 32, 281_468_534_259_712, 65_535, 65_535),
    (1 << 32, 281_468_534_259_711, 65_535, 65_534),
    (1, u64::MAX, 65_535, 65_535),
];

/// The average over so many places, where it has one.
fn average(area: u64, sum: u64, top: u16) -> Option<u16> {
    if area == 0 || area > 1 << 32 {
        return None;
    }
    Some(Averager::new(area).average(sum, top))
}

#[test]
fn averages_are_the_nearest_whole_numbers(rt: HostRuntime) {
    for (number, (area, sum, top, want)) in AVERAGES.iter().enumerate() {
        assert!(rt;
            is_same(&average(*area, *sum, *top), &Some(*want)),
            "average {number}"
        );
    }
}
