//! Which keys fit an image, and every block of small pictures beside the plain way.

use crate::fixtures::names::name;
use crate::fixtures::{is_same, note};
use crate::flight::block_plain;
use iiif_area::Sums;
use iiif_keys::{CacheKey, Parts, Shape, SumKey, SumVal, TileKey, TileVal, parts};
use iiif_pixel::{Depth, Dim, Kind, Raster, Rect};
use std::alloc::Global;
use std::sync::Arc;

/// A block, by all that a key of sums has but the name, which is `a`.
#[derive(Clone, Copy)]
struct Block {
    edge: u32,
    rect: Rect,
    size: Dim,
    level: u8,
    bx: u32,
    by: u32,
}

/// The key of a block.
fn key_of(alloc: Global, block: &Block) -> Option<SumKey> {
    Some(SumKey {
        name: name(alloc, "a")?,
        edge: block.edge,
        rect: block.rect,
        size: block.size,
        level: block.level,
        bx: block.bx,
        by: block.by,
    })
}

/// A column of tiles and an edge, and whether the tile there in the second row, of edge 2, fits an image of 4 by 4 at the edge.
type Tile = (u32, u32, bool);

/// Whether a tile fits as it is to.
fn is_tile_right(alloc: Global, tile: &Tile) -> Option<bool> {
    let key = TileKey {
        name: name(alloc, "a")?,
        edge: 2,
        tx: tile.0,
        ty: 1,
    };
    Some(is_same(&key.fits(tile.1, &gray(4)), &tile.2))
}

/// The shape of a gray picture with equal sides.
fn gray(side: u32) -> Shape {
    Shape {
        dim: Dim { w: side, h: side },
        kind: Kind::Gray,
        depth: Depth::Eight,
    }
}

static TILES: [Tile; 4] = [
    (1, 2, true),
    (1, 3, false),
    (2, 2, false),
    // The product of column and edge passes 2^32.
    (1 << 31, 2, false),
];

/// A block, the sides of a gray picture, and whether it fits.
type Place = (Block, u32, bool);

/// Whether a block fits as it is to.
fn is_place_right(alloc: Global, place: &Place) -> Option<bool> {
    let key = key_of(alloc, &place.0)?;
    Some(is_same(&key.fits(key.edge, &gray(place.1)), &place.2))
}

/// A block of level 0 of a picture of 4 by 4, scaled to 2 by 2.
const LOW: Block = Block {
    edge: 2,
    rect: Rect {
        x: 0,
        y: 0,
        w: 4,
        h: 4,
    },
    size: Dim { w: 2, h: 2 },
    level: 0,
    bx: 0,
    by: 0,
};

/// A block in column 1, of a picture that is scaled to 4 by 2.
const NEXT: Block = Block {
    bx: 1,
    size: Dim { w: 4, h: 2 },
    ..LOW
};

/// The whole of a picture of 4,096 by 4,096.
const LARGE: Block = Block {
    edge: 1024,
    rect: Rect {
        x: 0,
        y: 0,
        w: 4096,
        h: 4096,
    },
    size: Dim { w: 4096, h: 4096 },
    level: 2,
    bx: 0,
    by: 0,
};

static PLACES: [Place; 10] = [
    (Block { level: 1, ..LOW }, 4, true),
    (Block { level: 21, ..LOW }, 4, false),
    (Block { bx: 2, ..LOW }, 4, false),
    (Block { bx: 1 << 31, ..LOW }, 4, false),
    (
        Block {
            size: Dim { w: 5, h: 2 },
            ..NEXT
        },
        4,
        false,
    ),
    (
        Block {
            size: Dim { w: 0, h: 2 },
            ..NEXT
        },
        4,
        false,
    ),
    (NEXT, 4, true),
    (
        Block {
            rect: Rect {
                x: 1,
                y: 0,
                w: 4,
                h: 4,
            },
            ..NEXT
        },
        4,
        false,
    ),
    // 4,096 by 4,096 places take more than 2^26 bytes, 2,048 by 4,094 don't.
    (LARGE, 4096, false),
    (
        Block {
            size: Dim { w: 2048, h: 4094 },
            ..LARGE
        },
        4096,
        true,
    ),
];

#[test]
fn keys_that_do_not_fit(rt: HostRuntime) {
    for tile in &TILES {
        assert!(rt; is_tile_right(rt.alloc(), tile) == Some(true));
    }
    for (line, place) in PLACES.iter().enumerate() {
        assert!(rt; is_place_right(rt.alloc(), place) == Some(true), "{line}");
    }
}

/// A picture: its sides, its kind and depth by their byte in a tile's value, and its first and last edge.
type Picture = (u8, u8, u8, u32, u32);

/// The bytes of a tile's value with these sides, whose samples look random, and none of which is 0.
fn bytes_of(alloc: Global, picture: &Picture) -> Option<Vec<u8>> {
    let (w, h, kind, ..) = *picture;
    let mut bytes = Vec::from_slice(alloc, &[0, 0, 0, w, 0, 0, 0, h, kind]).ok()?;
    let depth = if kind < 16 { 1u32 } else { 2 };
    let width = u32::from(w)
        .wrapping_mul(u32::from(kind & 3))
        .wrapping_mul(depth);
    let mut state = 12345u32;
    for _ in 0..width.wrapping_mul(u32::from(h)) {
        state = state.wrapping_mul(1_664_525).wrapping_add(1_013_904_223);
        bytes.push((state >> 24) as u8 | 1).ok()?;
    }
    Some(bytes)
}

/// A picture, and the shape of its image.
#[derive(Drop)]
struct Scene {
    alloc: Global,
    picture: Raster,
    shape: Shape,
}

/// A picture's scene.
fn scene_of(alloc: Global, picture: &Picture) -> Option<Scene> {
    let TileVal { raster } = TileKey::value_from(alloc, &bytes_of(alloc, picture)?).ok()?;
    let shape = Shape {
        dim: raster.dim(),
        kind: raster.kind(),
        depth: raster.depth(),
    };
    Some(Scene {
        alloc,
        picture: raster,
        shape,
    })
}

/// Where the block of a key lies in a picture.
fn block_at(dim: Dim, key: &SumKey) -> Rect {
    let side = key.edge.wrapping_shl(u32::from(key.level));
    let (x, y) = (key.bx.wrapping_mul(side), key.by.wrapping_mul(side));
    Rect {
        x,
        y,
        w: side.min(dim.w.saturating_sub(x)),
        h: side.min(dim.h.saturating_sub(y)),
    }
}

/// The sums of a key at some places, the plain way.
fn plain_sums(scene: &Scene, key: &SumKey, places: Rect) -> Option<Vec<u64>> {
    let at = block_at(scene.shape.dim, key);
    let mut sums = Vec::new(scene.alloc);
    for j in 0..places.h {
        for i in 0..places.w {
            for channel in 0..scene.shape.kind.channels() {
                let (i, j) = (places.x.wrapping_add(i), places.y.wrapping_add(j));
                let sum = block_plain::sum_at(
                    &scene.picture,
                    at,
                    key.rect,
                    key.size,
                    i,
                    j,
                    channel,
                );
                sums.push(sum).ok()?;
            }
        }
    }
    Some(sums)
}

/// The sums of a key that fits, the plain way.
fn plain_value(scene: &Scene, key: &SumKey) -> Option<SumVal> {
    if !key.fits(key.edge, &scene.shape) {
        return None;
    }
    let places = key.places_in(scene.shape.dim);
    let sums = plain_sums(scene, key, places)?;
    if scene.shape.kind.count(places.dim()) != Some(sums.len()) {
        return None;
    }
    Some(SumVal {
        sums: Sums::from_parts(places, scene.shape.kind, sums),
    })
}

/// A tile's value in the picture.
fn tile_value(scene: &Scene, tile: &TileKey) -> Option<TileVal> {
    if !tile.fits(tile.edge, &scene.shape) {
        return None;
    }
    let at = tile.rect_in(scene.shape.dim);
    if !at.lies_in(scene.picture.dim()) {
        return None;
    }
    Some(TileVal {
        raster: scene.picture.crop(at).ok()?,
    })
}

/// The value of a key of level 0, by that of its tile in the picture.
fn of_tile(scene: &Scene, key: &SumKey, tile: &TileKey) -> Option<SumVal> {
    let shape = &scene.shape;
    let value = tile_value(scene, tile)?;
    let is_small = u64::from(shape.dim.w) * u64::from(shape.dim.h) <= 1 << 32;
    if !is_small || !key.fits(key.edge, shape) || !tile.fits(key.edge, shape) {
        return None;
    }
    if !tile.shaped(shape, &value) {
        return None;
    }
    SumVal::of_tile(scene.alloc, key, shape, &value).ok()
}

/// The values of keys, as the plain way gives them.
fn plain_values(scene: &Scene, keys: &[SumKey]) -> Option<Vec<Arc<SumVal>>> {
    let mut values = Vec::new(scene.alloc);
    for key in keys {
        let value = plain_value(scene, key)?;
        if value.sums.kind() != scene.shape.kind {
            return None;
        }
        values.push(Arc::new(scene.alloc, value).ok()?).ok()?;
    }
    Some(values)
}

/// The value of a key, made of those of these keys as the plain way gives them.
fn of_sums(scene: &Scene, key: &SumKey, keys: &[SumKey]) -> Option<SumVal> {
    if !key.fits(key.edge, &scene.shape) {
        return None;
    }
    let values = plain_values(scene, keys)?;
    SumVal::of_parts(scene.alloc, key, &scene.shape, &values).ok()
}

/// The value that the parts of a key make: of a tile of the picture, or of sums that the plain way gives.
fn derived(scene: &Scene, key: &SumKey) -> Option<SumVal> {
    if !key.fits(key.edge, &scene.shape) {
        return None;
    }
    match parts(scene.alloc, key).ok()? {
        Parts::Tile(tile) => of_tile(scene, key, &tile),
        Parts::Sums(keys) => of_sums(scene, key, &keys),
    }
}

/// Whether the block of a key has a place of its rectangle, in a picture with these sides.
fn has_any(dim: Dim, key: &SumKey) -> bool {
    let at = block_at(dim, key);
    for y in 0..dim.h {
        for x in 0..dim.w {
            if block_plain::has(at, x, y) && block_plain::has(key.rect, x, y) {
                return true;
            }
        }
    }
    false
}

/// Whether the sums of a value are the plain way's, at just the places where that has sums.
fn are_plain(scene: &Scene, key: &SumKey, value: &SumVal) -> bool {
    let picture = &scene.picture;
    let at = block_at(scene.shape.dim, key);
    let mut sums = value.sums.sums().iter();
    let (rect, size) = (key.rect, key.size);
    for j in 0..size.h {
        for i in 0..size.w {
            for channel in 0..picture.kind().channels() {
                let plain = block_plain::sum_at(picture, at, rect, size, i, j, channel);
                let is_inside = block_plain::has(value.sums.rect(), i, j);
                if !is_same(&(plain > 0), &is_inside) {
                    return false;
                }
                if is_inside && !is_same(&sums.next().copied(), &Some(plain)) {
                    return false;
                }
            }
        }
    }
    sums.next().is_none()
}

/// Whether what the parts of a key make has its shape and is the plain way's.
fn is_made_right(scene: &Scene, key: &SumKey) -> Option<bool> {
    if !key.fits(key.edge, &scene.shape) {
        return None;
    }
    let value = derived(scene, key)?;
    Some(key.shaped(&scene.shape, &value) && are_plain(scene, key, &value))
}

/// Whether a key fits just where its block has a place of the rectangle, and then what its parts make is the plain way's.
fn is_block_right(scene: &Scene, block: &Block) -> Option<bool> {
    let key = key_of(scene.alloc, block)?;
    let fits = key.fits(key.edge, &scene.shape);
    if !is_same(&fits, &has_any(scene.shape.dim, &key)) {
        return Some(false);
    }
    if fits {
        is_made_right(scene, &key)
    } else {
        Some(true)
    }
}

/// Whether every block of a rectangle and a size is right, at these edges: of the levels 0 to 3, and one column and row of blocks more
/// than the picture has.
fn are_blocks_right(scene: &Scene, rect: Rect, size: Dim, first: u32, last: u32) -> bool {
    let dim = scene.shape.dim;
    // Two bits for the level, and three each for the edge, the column and the row.
    for bits in 0..2048u32 {
        let block = Block {
            edge: (bits >> 2) & 7,
            rect,
            size,
            level: (bits & 3) as u8,
            bx: (bits >> 5) & 7,
            by: (bits >> 8) & 7,
        };
        let side = block.edge.wrapping_shl(bits & 3);
        let is_column = block.bx.wrapping_mul(side) < dim.w.wrapping_add(side);
        let is_row = block.by.wrapping_mul(side) < dim.h.wrapping_add(side);
        let is_edge = first <= block.edge && block.edge <= last;
        if is_edge && is_column && is_row && is_block_right(scene, &block) != Some(true) {
            note(
                "edge, level, column and row",
                &(block.edge, block.level, block.bx, block.by),
            );
            return false;
        }
    }
    true
}

/// Whether every block of a rectangle is right, at every size and at these edges.
fn is_rect_right(scene: &Scene, rect: Rect, first: u32, last: u32) -> bool {
    for w in 1..=rect.w {
        for h in 1..=rect.h {
            let size = Dim { w, h };
            if !are_blocks_right(scene, rect, size, first, last) {
                note("size", &size);
                return false;
            }
        }
    }
    true
}

/// Whether every block of every rectangle of a picture with sides of at most 7 is right, at every size and at these edges.
fn is_right(scene: &Scene, first: u32, last: u32) -> bool {
    let Dim { w, h } = scene.shape.dim;
    for x in 0..w {
        for y in 0..h {
            for width in 1..=w - x {
                for height in 1..=h - y {
                    let rect = Rect {
                        x,
                        y,
                        w: width,
                        h: height,
                    };
                    if !is_rect_right(scene, rect, first, last) {
                        note("rectangle", &rect);
                        return false;
                    }
                }
            }
        }
    }
    true
}

/// Whether every block of a picture is right.
fn is_picture_right(alloc: Global, picture: &Picture) -> Option<bool> {
    Some(is_right(&scene_of(alloc, picture)?, picture.3, picture.4))
}

/// Gray pictures of 1 by 1 to 4 by 4, and others.
static PICTURES: [Picture; 21] = [
    (1, 1, 1, 1, 5),
    (2, 1, 1, 1, 5),
    (3, 1, 1, 1, 5),
    (4, 1, 1, 1, 5),
    (1, 2, 1, 1, 5),
    (2, 2, 1, 1, 5),
    (3, 2, 1, 1, 5),
    (4, 2, 1, 1, 5),
    (1, 3, 1, 1, 5),
    (2, 3, 1, 1, 5),
    (3, 3, 1, 1, 5),
    (4, 3, 1, 1, 5),
    (1, 4, 1, 1, 5),
    (2, 4, 1, 1, 5),
    (3, 4, 1, 1, 5),
    (4, 4, 1, 1, 5),
    (6, 2, 1, 1, 5),
    (1, 5, 1, 1, 5),
    // Red, green and blue, gray of 16 bits, and red, green and blue of 16 bits.
    (3, 3, 3, 1, 5),
    (4, 3, 17, 1, 4),
    (2, 3, 19, 1, 3),
];

#[test]
fn blocks_of_pictures(rt: HostRuntime) {
    for (line, picture) in PICTURES.iter().enumerate() {
        assert!(rt;
            is_same(&is_picture_right(rt.alloc(), picture), &Some(true)),
            "{line}"
        );
    }
}

#[test]
fn blocks_of_6_by_6_at_edge_1(rt: HostRuntime) {
    assert!(rt; is_picture_right(rt.alloc(), &(6, 6, 1, 1, 1)) == Some(true));
}

#[test]
fn blocks_of_6_by_6_at_edges_2_to_5(rt: HostRuntime) {
    assert!(rt; is_picture_right(rt.alloc(), &(6, 6, 1, 2, 5)) == Some(true));
}
