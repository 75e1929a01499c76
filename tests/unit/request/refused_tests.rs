//! Information and plans that are asked for again once a growth of memory was refused: the answer is lack of memory, and the second call
//! gives the case's own answer. `tests/refused` runs each test with the first growth refused, with the second, and so on; with ample
//! memory each call answers at once.

use crate::fixtures::is_same;
use crate::request::pictures::{ROOM, UPRIGHT};
use crate::request::plan_tests::{FOUR, are_blocks, are_tiles};
use iiif_canonical::{Limits, Resolved};
use iiif_info::info;
use iiif_keys::{Name, Parts, SumKey, is_name, parts};
use iiif_pixel::{Dim, Kind, Quality, Rect};
use iiif_planner::{Plan, plan};
use std::alloc::Global;
use std::test::Fail;

/// The information of the image `a` of 4 by 4, in tiles of 2 by 2, where memory is not wanted.
fn text(alloc: Global) -> Option<String> {
    let limits = Limits {
        max_w: 4096,
        max_h: 4096,
        upscale: false,
    };
    info(
        alloc,
        "http://localhost/iiif",
        "a",
        Dim { w: 4, h: 4 },
        &limits,
        2,
    )
    .ok()
}

/// The information of the image `a` of 4 by 4, in tiles of 2.
const WHOLE: &str =
    "{\"@context\":\"http://iiif.io/api/image/3/context.json\",\"extraFeatures\":[\"baseUriRedirect\",\
        \"canonicalLinkHeader\",\"cors\",\"mirroring\",\"regionByPct\",\"regionByPx\",\"regionSquare\",\
        \"rotationBy90s\",\"sizeByConfinedWh\",\"sizeByH\",\"sizeByPct\",\"sizeByW\",\"sizeByWh\"],\
        \"extraFormats\":[\"tif\"],\"extraQualities\":[\"bitonal\",\"color\",\"gray\"],\"height\":4,\
        \"id\":\"http://localhost/iiif/a\",\"maxHeight\":4096,\"maxWidth\":4096,\"preferredFormats\":[\"tif\"],\
        \"profile\":\"level0\",\"protocol\":\"http://iiif.io/api/image\",\"tiles\":[{\"height\":2,\"scaleFactors\":[1,\
        2],\"width\":2}],\"type\":\"ImageService3\",\"width\":4}";

#[test]
fn information_is_written_after_a_refused_growth(rt: HostRuntime) -> Result<(), Fail> {
    let text = match text(rt.alloc()) {
        Some(text) => text,
        None => text(rt.alloc()).ok_or("no text, though memory was ample")?,
    };
    assert!(rt; is_same(&text.as_str(), &WHOLE), "{text}");
    Ok(())
}

/// The plan of a square of that image's last samples, where memory is not wanted.
fn planned(alloc: Global, name: &Name, from: u32, side: u32) -> Option<Plan> {
    if from >= 4 || side == 0 {
        return None;
    }
    let resolved = Resolved {
        rect: Rect {
            x: from,
            y: from,
            w: 4 - from,
            h: 4 - from,
        },
        size: Dim { w: side, h: side },
        turn: UPRIGHT,
        quality: Quality::Default,
    };
    let dim = Dim { w: 4, h: 4 };
    plan(alloc, name, &resolved, dim, Kind::Gray, 2, ROOM).ok()
}

/// The resolved request for the whole image at half its width.
const HALVED: Resolved = Resolved {
    rect: Rect {
        x: 0,
        y: 0,
        w: 4,
        h: 4,
    },
    size: Dim { w: 2, h: 2 },
    turn: UPRIGHT,
    quality: Quality::Default,
};

/// Whether a block has one part, the tile in this column and row; none where memory is wanted.
fn is_tile(alloc: Global, key: &SumKey, place: (u32, u32)) -> Option<bool> {
    match parts(alloc, key).ok()? {
        Parts::Tile(tile) => Some(are_tiles(&[tile], 2, &[place])),
        Parts::Sums(_) => Some(false),
    }
}

/// Whether blocks are the four of level 0, and the part of each is its tile.
fn are_four(alloc: Global, keys: &[SumKey]) -> Option<bool> {
    for (key, place) in keys.iter().zip(FOUR) {
        if !is_tile(alloc, key, *place)? {
            return Some(false);
        }
    }
    Some(are_blocks(keys, 2, &HALVED, 0, FOUR))
}

/// Whether blocks are the one that holds the image, and it is made of those four: a block of level 1 is 2^1 * 2 = 4 long, as the image is;
/// its quarter (i, j) is the block (2 * 0 + i, 2 * 0 + j) of level 0.
fn is_one_block(alloc: Global, keys: &[SumKey]) -> Option<bool> {
    match keys.first() {
        Some(key) => match parts(alloc, key).ok()? {
            Parts::Sums(sums) => {
                Some(are_four(alloc, &sums)? && are_blocks(keys, 2, &HALVED, 1, &[(0, 0)]))
            }
            Parts::Tile(_) => Some(false),
        },
        None => Some(false),
    }
}

/// Whether the plan of such a square copies these tiles, or is of that block where there are none.
fn is_planned(
    alloc: Global,
    name: &Name,
    from: u32,
    side: u32,
    tiles: &[(u32, u32)],
) -> Option<bool> {
    match planned(alloc, name, from, side)? {
        Plan::Copy(keys) => Some(are_tiles(&keys, 2, tiles)),
        Plan::Sum(keys) => Some(tiles.is_empty() && is_one_block(alloc, &keys)?),
        Plan::Grow(_) => Some(false),
    }
}

/// Makes the plan, once more where memory was wanted.
fn is_planned_again(alloc: Global, name: &Name, case: &Case) -> bool {
    let (from, side, tiles) = *case;
    match is_planned(alloc, name, from, side, tiles) {
        Some(right) => right,
        None => is_same(&is_planned(alloc, name, from, side, tiles), &Some(true)),
    }
}

/// From where a square reaches, the side it is scaled to, and its tiles.
type Case = (u32, u32, &'static [(u32, u32)]);

/// The whole image as it is, and at half its width; and its last tile, which stands alone.
static PLANS: [Case; 3] = [(0, 4, FOUR), (0, 2, &[]), (2, 2, &[(1, 1)])];

#[test]
fn plan_is_made_after_a_refused_growth(rt: HostRuntime) -> Result<(), Fail> {
    let text = String::from_str(rt.alloc(), "a")?;
    if !is_name(text.as_str()) {
        return Err("no name".into());
    }
    let name = Name::new(text)?;
    for case in &PLANS {
        assert!(rt;
            is_planned_again(rt.alloc(), &name, case),
            "from {}, {} wide",
            case.0,
            case.1
        );
    }
    Ok(())
}
