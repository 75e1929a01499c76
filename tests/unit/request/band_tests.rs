//! Bands by hand.

use crate::fixtures::{is_missing, is_same, is_unwanted};
use crate::request::pictures::{ROOM, UPRIGHT, job, named};
use iiif_area::part_of;
use iiif_canonical::Resolved;
use iiif_keys::Shape;
use iiif_pixel::{Depth, Dim, Kind, Quality, Rect, Turn, turn_place};
use iiif_planner::{Band, Plan, band_at, band_count, bands, plan};
use std::alloc::Global;

/// Whether there are two bands: of three rows and all four items, and of these rows and items.
fn are_two(bands: &[Band], side: u32, rows: u32, last: [usize; 2]) -> bool {
    if !is_same(&bands.len(), &2) {
        return false;
    }
    let upper = Rect {
        x: 0,
        y: 0,
        w: side,
        h: 3,
    };
    let lower = Rect {
        x: 0,
        y: 3,
        w: side,
        h: rows,
    };
    is_same(&bands[0].rect, &upper)
        && is_same(&bands[1].rect, &lower)
        && is_same(&bands[0].items.as_slice(), &[0, 1, 2, 3].as_slice())
        && is_same(&bands[1].items.as_slice(), &last.as_slice())
}

/// A side, quarters, and the rows and the items of the second band.
type Cut = (u32, u8, u32, [usize; 2]);

/// Whether a picture of 4 by 4, of tiles with edge 2, is cut so, scaled to this side and turned by so many quarters.
fn is_cut(alloc: Global, cut: &Cut) -> bool {
    let (side, quarters, rows, last) = *cut;
    let shape = Shape {
        dim: Dim { w: 4, h: 4 },
        kind: Kind::Gray,
        depth: Depth::Eight,
    };
    let size = Dim { w: side, h: side };
    let turn = Turn {
        mirror: false,
        quarters,
    };
    let Some(job) = job(alloc, shape, 2, size, turn, ROOM) else {
        return false;
    };
    match bands(alloc, &job.resolved, &job.plan, 3) {
        Ok(bands) => are_two(&bands, side, rows, last),
        Err(fault) => is_unwanted(&fault),
    }
}

/// Upright the first three rows have places of all four tiles, and the
/// last of the lower two. A quarter clockwise the last row is the picture's right column, of which the second and the fourth tile have
/// places. Scaled to 5 by 5, the middle row or column has places of all four tiles.
static CUTS: [Cut; 4] = [
    (4, 0, 1, [2, 3]),
    (4, 1, 1, [1, 3]),
    (5, 0, 2, [2, 3]),
    (5, 1, 2, [1, 3]),
];

#[test]
fn last_band_is_lower_and_has_the_tiles_of_its_row(rt: HostRuntime) {
    for (k, cut) in CUTS.iter().enumerate() {
        assert!(rt; is_cut(rt.alloc(), cut), "cut {k}");
    }
}

/// A region of a picture of 11 by 9, the sides that it is scaled to, and the edge of its tiles.
type Scaled = (Rect, Dim, u32);

/// The whole picture and a part of it, that keep their size, are scaled down, and are scaled up: along both sides, and along one.
static SCALED: [Scaled; 8] = [
    (WHOLE, Dim { w: 11, h: 9 }, 2),
    (PART, Dim { w: 7, h: 6 }, 3),
    (WHOLE, Dim { w: 5, h: 3 }, 2),
    (PART, Dim { w: 3, h: 5 }, 2),
    (PART, Dim { w: 1, h: 1 }, 1),
    (WHOLE, Dim { w: 13, h: 17 }, 4),
    (PART, Dim { w: 10, h: 4 }, 2),
    (PART, Dim { w: 2, h: 13 }, 3),
];

const WHOLE: Rect = Rect {
    x: 0,
    y: 0,
    w: 11,
    h: 9,
};

const PART: Rect = Rect {
    x: 3,
    y: 2,
    w: 7,
    h: 6,
};

/// The result columns that `count` columns from `first` on meet, where `a` columns are scaled to `c`: the first, and the end. Rows
/// likewise.
fn met(first: u32, count: u32, a: u32, c: u32) -> (u32, u32) {
    (first * c / a, ((first + count) * c).div_ceil(a))
}

/// Whether a place that the item has, of these columns and rows of a grid, is turned into a place of the band.
fn has_place(resolved: &Resolved, side: u32, at: (u32, u32), band: Rect) -> bool {
    let (region, size) = (resolved.rect, resolved.size);
    let square = Rect {
        x: at.0 * side,
        y: at.1 * side,
        w: side,
        h: side,
    };
    let part = part_of(square, region);
    let (left, right) = met(part.x, part.w, region.w, size.w);
    let (top, bottom) = met(part.y, part.h, region.h, size.h);
    for y in top..bottom {
        for x in left..right {
            let (column, row) = turn_place(resolved.turn, size, x, y);
            if column < band.w && band.y <= row && row < band.y + band.h {
                return true;
            }
        }
    }
    false
}

/// The side of an item, and its column and row; none behind the last.
fn item(plan: &Plan, i: usize) -> Option<(u32, (u32, u32))> {
    match plan {
        Plan::Copy(keys) => keys.get(i).map(|key| (key.edge, (key.tx, key.ty))),
        Plan::Grow(keys) => keys.get(i).map(|key| (key.edge, (key.tx, key.ty))),
        Plan::Sum(keys) => keys.get(i).map(|key| (key.edge << key.level, (key.bx, key.by))),
    }
}

/// Whether a band lists just the items that have a place of it, in the plan's order.
fn lists_its_items(resolved: &Resolved, plan: &Plan, band: &Band) -> bool {
    let mut listed = 0;
    let mut i = 0;
    while let Some((side, at)) = item(plan, i) {
        if has_place(resolved, side, at, band.rect) {
            if listed >= band.items.len() || !is_same(&band.items[listed], &i) {
                return false;
            }
            listed += 1;
        }
        i += 1;
    }
    is_same(&band.items.len(), &listed)
}

/// Whether the bands of `rows` of a request list just the items that have a place of them, all at once and one at a time.
fn bands_list_their_items(alloc: Global, scaled: &Scaled, turn: Turn, rows: u32) -> bool {
    let (rect, size, edge) = *scaled;
    let resolved = Resolved {
        rect,
        size,
        turn,
        quality: Quality::Default,
    };
    let Some(name) = named(alloc) else {
        return false;
    };
    let Ok(plan) = plan(alloc, &name, &resolved, WHOLE.dim(), Kind::Gray, edge, 12) else {
        return is_missing();
    };
    let Ok(bands) = bands(alloc, &resolved, &plan, rows) else {
        return is_missing();
    };
    if !is_same(&bands.len(), &(band_count(&resolved, rows) as usize)) {
        return false;
    }
    for (i, band) in bands.iter().enumerate() {
        let Ok(alone) = band_at(alloc, &resolved, &plan, rows, i as u32) else {
            return is_missing();
        };
        let same = is_same(&alone.rect, &band.rect) && is_same(&alone.items.as_slice(), &band.items.as_slice());
        if !(same && lists_its_items(&resolved, &plan, band)) {
            return false;
        }
    }
    true
}

#[test]
fn bands_list_the_items_that_a_plain_search_finds(rt: HostRuntime) {
    for (k, scaled) in SCALED.iter().enumerate() {
        for turn in 0..8 {
            for rows in 1..5 {
                let by = Turn {
                    mirror: turn >= 4,
                    quarters: turn % 4,
                };
                assert!(rt; bands_list_their_items(rt.alloc(), scaled, by, rows), "request {k}, turn {turn}, rows {rows}");
            }
        }
    }
}

/// Whether the picture of 16,384 by 16,384, of tiles with edge 64, has 2,048 bands of 8 rows, and each lists the 256 tiles of its row.
fn each_band_has_a_row_of_tiles(alloc: Global) -> bool {
    let dim = Dim {
        w: 16_384,
        h: 16_384,
    };
    let resolved = Resolved {
        rect: Rect {
            x: 0,
            y: 0,
            w: dim.w,
            h: dim.h,
        },
        size: dim,
        turn: UPRIGHT,
        quality: Quality::Default,
    };
    let Some(name) = named(alloc) else {
        return false;
    };
    let Ok(plan) = plan(alloc, &name, &resolved, dim, Kind::Gray, 64, ROOM) else {
        return is_missing();
    };
    let Ok(bands) = bands(alloc, &resolved, &plan, 8) else {
        return is_missing();
    };
    if !is_same(&bands.len(), &2_048) {
        return false;
    }
    for (n, band) in bands.iter().enumerate() {
        let first = n / 8 * 256;
        let ends = is_same(&band.items.len(), &256) && is_same(&band.items[0], &first) && is_same(&band.items[255], &(first + 255));
        if !ends {
            return false;
        }
    }
    true
}

#[test]
fn low_bands_of_a_large_picture_have_a_row_of_tiles(rt: HostRuntime) {
    assert!(rt; each_band_has_a_row_of_tiles(rt.alloc()));
}
