//! Plans by hand.

use crate::fixtures::{is_missing, is_same, is_unwanted};
use crate::request::pictures::{ROOM, UPRIGHT, named};
use iiif_canonical::Resolved;
use iiif_keys::{SumKey, TileKey};
use iiif_pixel::{Dim, Kind, Quality, Rect};
use iiif_planner::{Plan, plan};
use std::alloc::Global;

/// The columns and rows of tiles or blocks, in the order of a plan.
pub type Places = &'static [(u32, u32)];

/// Of what a plan of the image `a` is to be made.
#[derive(Clone, Copy)]
enum Wanted {
    /// Of these tiles, where the region keeps its size.
    Tiles(Places),
    /// Of these tiles, where a side is above the region's.
    Grown(Places),
    /// Of these blocks of a level.
    Blocks(u8, Places),
    /// Of so many blocks of a level, of which the last stands here.
    Many(usize, u8, (u32, u32)),
    /// There is none, as memory runs out.
    Memory,
}

/// The sides of an image, its kind, the edge of its tiles and the room for a block's sums; a region's first column and row, its width and
/// height; the sides it is scaled to; and what is wanted.
type Case = (Dim, Kind, u32, u64, [u32; 4], Dim, Wanted);

/// The four tiles of a square, or its four blocks.
pub const FOUR: Places = &[(0, 0), (1, 0), (0, 1), (1, 1)];

/// Plans.
static PLANS: [Case; 32] = [
    // Regions that keep their size. In the last there are three columns of tiles, the last one place wide.
    (
        Dim { w: 4, h: 4 },
        Kind::Gray,
        2,
        ROOM,
        [0, 0, 4, 4],
        Dim { w: 4, h: 4 },
        Wanted::Tiles(FOUR),
    ),
    (
        Dim { w: 4, h: 4 },
        Kind::Gray,
        2,
        ROOM,
        [2, 2, 2, 2],
        Dim { w: 2, h: 2 },
        Wanted::Tiles(&[(1, 1)]),
    ),
    (
        Dim { w: 4, h: 4 },
        Kind::Gray,
        2,
        ROOM,
        [1, 1, 2, 2],
        Dim { w: 2, h: 2 },
        Wanted::Tiles(FOUR),
    ),
    (
        Dim { w: 4, h: 4 },
        Kind::Gray,
        2,
        ROOM,
        [1, 3, 3, 1],
        Dim { w: 3, h: 1 },
        Wanted::Tiles(&[(0, 1), (1, 1)]),
    ),
    (
        Dim { w: 5, h: 3 },
        Kind::Gray,
        2,
        ROOM,
        [0, 0, 5, 3],
        Dim { w: 5, h: 3 },
        Wanted::Tiles(&[(0, 0), (1, 0), (2, 0), (0, 1), (1, 1), (2, 1)]),
    ),
    // Regions with a side that is scaled up. In the last two one side is above the region's and one below.
    (
        Dim { w: 4, h: 4 },
        Kind::Gray,
        2,
        ROOM,
        [0, 0, 2, 2],
        Dim { w: 3, h: 3 },
        Wanted::Grown(&[(0, 0)]),
    ),
    (
        Dim { w: 4, h: 4 },
        Kind::Gray,
        2,
        ROOM,
        [1, 1, 2, 2],
        Dim { w: 4, h: 4 },
        Wanted::Grown(FOUR),
    ),
    (
        Dim { w: 4, h: 4 },
        Kind::Gray,
        2,
        ROOM,
        [0, 0, 2, 4],
        Dim { w: 2, h: 5 },
        Wanted::Grown(&[(0, 0), (0, 1)]),
    ),
    (
        Dim { w: 4, h: 4 },
        Kind::Gray,
        2,
        ROOM,
        [0, 0, 4, 2],
        Dim { w: 5, h: 1 },
        Wanted::Grown(&[(0, 0), (1, 0)]),
    ),
    (
        Dim { w: 4, h: 4 },
        Kind::Gray,
        2,
        ROOM,
        [1, 1, 2, 2],
        Dim { w: 1, h: 3 },
        Wanted::Grown(FOUR),
    ),
    // Blocks are counted from the corner of the image. A block of level 0, 1, 2 meets at most 2, 3, 5 result columns and rows. In the
    // last one side alone is scaled.
    (
        Dim { w: 8, h: 8 },
        Kind::Gray,
        2,
        ROOM,
        [3, 3, 4, 4],
        Dim { w: 2, h: 2 },
        Wanted::Blocks(2, &[(0, 0)]),
    ),
    (
        Dim { w: 8, h: 8 },
        Kind::Gray,
        2,
        25,
        [3, 3, 4, 4],
        Dim { w: 2, h: 2 },
        Wanted::Blocks(2, &[(0, 0)]),
    ),
    (
        Dim { w: 8, h: 8 },
        Kind::Gray,
        2,
        24,
        [3, 3, 4, 4],
        Dim { w: 2, h: 2 },
        Wanted::Blocks(1, FOUR),
    ),
    (
        Dim { w: 8, h: 8 },
        Kind::Gray,
        2,
        9,
        [3, 3, 4, 4],
        Dim { w: 2, h: 2 },
        Wanted::Blocks(1, FOUR),
    ),
    (
        Dim { w: 8, h: 8 },
        Kind::Gray,
        2,
        8,
        [3, 3, 4, 4],
        Dim { w: 2, h: 2 },
        Wanted::Blocks(
            0,
            &[
                (1, 1),
                (2, 1),
                (3, 1),
                (1, 2),
                (2, 2),
                (3, 2),
                (1, 3),
                (2, 3),
                (3, 3),
            ],
        ),
    ),
    (
        Dim { w: 8, h: 8 },
        Kind::Gray,
        2,
        ROOM,
        [3, 3, 4, 4],
        Dim { w: 4, h: 3 },
        Wanted::Blocks(2, &[(0, 0)]),
    ),
    // At level 1 a block has at most 3 by 3 sums, at level 0 at most 2 by 2; RGB has three times as many.
    (
        Dim { w: 4, h: 4 },
        Kind::Gray,
        2,
        9,
        [0, 0, 4, 4],
        Dim { w: 2, h: 2 },
        Wanted::Blocks(1, &[(0, 0)]),
    ),
    (
        Dim { w: 4, h: 4 },
        Kind::Gray,
        2,
        8,
        [0, 0, 4, 4],
        Dim { w: 2, h: 2 },
        Wanted::Blocks(0, FOUR),
    ),
    (
        Dim { w: 4, h: 4 },
        Kind::Gray,
        2,
        4,
        [0, 0, 4, 4],
        Dim { w: 2, h: 2 },
        Wanted::Blocks(0, FOUR),
    ),
    (
        Dim { w: 4, h: 4 },
        Kind::Gray,
        2,
        3,
        [0, 0, 4, 4],
        Dim { w: 2, h: 2 },
        Wanted::Blocks(0, FOUR),
    ),
    (
        Dim { w: 4, h: 4 },
        Kind::Gray,
        2,
        0,
        [0, 0, 4, 4],
        Dim { w: 2, h: 2 },
        Wanted::Blocks(0, FOUR),
    ),
    (
        Dim { w: 4, h: 4 },
        Kind::Rgb,
        2,
        27,
        [0, 0, 4, 4],
        Dim { w: 2, h: 2 },
        Wanted::Blocks(1, &[(0, 0)]),
    ),
    (
        Dim { w: 4, h: 4 },
        Kind::Rgb,
        2,
        26,
        [0, 0, 4, 4],
        Dim { w: 2, h: 2 },
        Wanted::Blocks(0, FOUR),
    ),
    (
        Dim { w: 4, h: 4 },
        Kind::Rgb,
        2,
        12,
        [0, 0, 4, 4],
        Dim { w: 2, h: 2 },
        Wanted::Blocks(0, FOUR),
    ),
    (
        Dim { w: 4, h: 4 },
        Kind::Rgb,
        2,
        11,
        [0, 0, 4, 4],
        Dim { w: 2, h: 2 },
        Wanted::Blocks(0, FOUR),
    ),
    // No level is above the least whose block holds the image.
    (
        Dim { w: 4, h: 4 },
        Kind::Gray,
        2,
        ROOM,
        [0, 0, 4, 4],
        Dim { w: 1, h: 1 },
        Wanted::Blocks(1, &[(0, 0)]),
    ),
    (
        Dim { w: 4, h: 4 },
        Kind::Gray,
        3,
        ROOM,
        [0, 0, 4, 4],
        Dim { w: 1, h: 1 },
        Wanted::Blocks(1, &[(0, 0)]),
    ),
    (
        Dim { w: 4, h: 4 },
        Kind::Gray,
        4,
        ROOM,
        [0, 0, 4, 4],
        Dim { w: 1, h: 1 },
        Wanted::Blocks(0, &[(0, 0)]),
    ),
    // A block of level 3, 2,048 long, meets at most 211 result columns of the first, one of level 4 at most 421. Of the second, one of
    // level 3 has at most 10 by 2,049 sums, one of level 4 at most 18 by 4,097. The greatest level is 20, whatever the sides: a block of
    // the third is 1,073,741,824 long. Of the last there are too many tiles for any memory.
    (
        Dim {
            w: 10_000,
            h: 10_000,
        },
        Kind::Gray,
        256,
        ROOM,
        [0, 0, 10_000, 10_000],
        Dim { w: 1024, h: 1024 },
        Wanted::Many(25, 3, (4, 4)),
    ),
    (
        Dim { w: 1_000_000, h: 1 },
        Kind::Gray,
        256,
        ROOM,
        [0, 0, 1_000_000, 1],
        Dim { w: 4096, h: 1 },
        Wanted::Many(489, 3, (488, 0)),
    ),
    (
        Dim {
            w: 4_000_000_000,
            h: 4_000_000_000,
        },
        Kind::Gray,
        1024,
        ROOM,
        [0, 0, 4_000_000_000, 4_000_000_000],
        Dim { w: 1, h: 1 },
        Wanted::Many(16, 20, (3, 3)),
    ),
    (
        Dim {
            w: u32::MAX,
            h: u32::MAX,
        },
        Kind::Gray,
        1,
        ROOM,
        [0, 0, u32::MAX, u32::MAX],
        Dim {
            w: u32::MAX,
            h: u32::MAX,
        },
        Wanted::Memory,
    ),
];

/// Whether keys are those of the tiles of `a` in these columns and rows, in this order.
pub(crate) fn are_tiles(keys: &[TileKey], edge: u32, places: &[(u32, u32)]) -> bool {
    for (key, place) in keys.iter().zip(places) {
        let is_of_image = is_same(&key.name.as_str(), &"a") && is_same(&key.edge, &edge);
        if !is_of_image || !is_same(&(key.tx, key.ty), place) {
            return false;
        }
    }
    is_same(&keys.len(), &places.len())
}

/// Whether keys are those of the blocks of this level in these columns and rows, in this order, for what a request of `a` comes to.
pub(crate) fn are_blocks(
    keys: &[SumKey],
    edge: u32,
    resolved: &Resolved,
    level: u8,
    places: &[(u32, u32)],
) -> bool {
    for (key, place) in keys.iter().zip(places) {
        let is_of_image = is_same(&key.name.as_str(), &"a") && is_same(&key.edge, &edge);
        let is_asked = is_same(&key.rect, &resolved.rect) && is_same(&key.size, &resolved.size);
        if !is_of_image || !is_asked || !is_same(&(key.level, (key.bx, key.by)), &(level, *place)) {
            return false;
        }
    }
    is_same(&keys.len(), &places.len())
}

/// Whether there are so many blocks of this level, none below the last, which stands here.
fn are_many(keys: &[SumKey], count: usize, level: u8, last: (u32, u32)) -> bool {
    for key in keys {
        if !is_same(&key.level, &level) || !is_same(&key.by.min(last.1), &key.by) {
            return false;
        }
    }
    match keys.last() {
        Some(key) => is_same(&keys.len(), &count) && is_same(&(key.bx, key.by), &last),
        None => is_missing(),
    }
}

/// Whether a plan is made of what is wanted.
fn is_of(plan: &Plan, edge: u32, resolved: &Resolved, wanted: Wanted) -> bool {
    match (plan, wanted) {
        (Plan::Copy(keys), Wanted::Tiles(places)) => are_tiles(keys, edge, places),
        (Plan::Grow(keys), Wanted::Grown(places)) => are_tiles(keys, edge, places),
        (Plan::Sum(keys), Wanted::Blocks(level, places)) => are_blocks(
            keys, edge, resolved, level, places,
        ),
        (Plan::Sum(keys), Wanted::Many(count, level, last)) => are_many(keys, count, level, last),
        _ => is_unwanted(&"another kind of plan"),
    }
}

/// Whether a region that comes to this has the plan that is wanted, of an image with these sides, of this kind.
fn is_planned(alloc: Global, case: &Case) -> bool {
    let (dim, kind, edge, room, [x, y, w, h], size, wanted) = *case;
    let rect = Rect { x, y, w, h };
    let sides = 0 < size.w && 0 < w && 0 < size.h && 0 < h;
    let limits = 0 < edge && edge <= 1024 && room <= ROOM;
    if !(sides && limits && rect.lies_in(dim)) {
        return false;
    }
    let Some(name) = named(alloc) else {
        return false;
    };
    let resolved = Resolved {
        rect,
        size,
        turn: UPRIGHT,
        quality: Quality::Default,
    };
    match plan(alloc, &name, &resolved, dim, kind, edge, room) {
        Ok(plan) => is_of(&plan, edge, &resolved, wanted),
        Err(_) => matches!(wanted, Wanted::Memory),
    }
}

#[test]
fn plans_are_made_of_tiles_and_blocks(rt: HostRuntime) {
    for (k, case) in PLANS.iter().enumerate() {
        assert!(rt; is_planned(rt.alloc(), case), "plan {k}");
    }
}
