//! Regions of pictures that are scaled, from tiles, in two ways.

use crate::fixtures::rasters::{is_scalable, sample_or_zero};
use crate::fixtures::{is_missing, is_same};
use crate::picture::area_plain;
use crate::picture::pictures::cropped;
use iiif_area::places::{is_inside, meets};
use iiif_area::sums::Sums;
use iiif_pixel::{Depth, Dim, Raster, Rect, Span};
use std::alloc::Global;

/// A region of a picture, the size that it is scaled to, and the edge of the picture's tiles.
#[derive(Clone, Copy)]
pub(crate) struct Cut {
    pub(crate) region: Rect,
    pub(crate) size: Dim,
    pub(crate) edge: u32,
}

/// How tiles come into sums.
#[derive(Clone, Copy)]
pub(crate) enum Way {
    /// The sums of each are made, and added to the others.
    Merged,
    /// Each is added.
    Added,
}

/// The tile in a column and a row of tiles, where it has a place of the region.
fn tile_at(dim: Dim, cut: Cut, column: u32, row: u32) -> Option<Rect> {
    let (x, y) = (column.wrapping_mul(cut.edge), row.wrapping_mul(cut.edge));
    if x >= dim.w || y >= dim.h {
        return None;
    }
    let at = Rect {
        x,
        y,
        w: cut.edge.min(dim.w - x),
        h: cut.edge.min(dim.h - y),
    };
    if meets(at, cut.region) {
        Some(at)
    } else {
        None
    }
}

/// The sums of a tile that has a place of the region.
fn sums_of(alloc: Global, tile: &Raster, at: Rect, cut: Cut) -> Option<Sums> {
    let Cut { region, size, .. } = cut;
    if tile.dim() != at.dim() || !meets(at, region) || !is_scalable(region.dim(), size) {
        return None;
    }
    let Ok(sums) = Sums::of_tile(alloc, tile, at, region, size) else {
        return None;
    };
    Some(sums)
}

/// Adds a tile that has a place of the region to sums of its kind, or says that it doesn't.
pub(crate) fn add(sums: &mut Sums, tile: &Raster, at: Rect, cut: Cut) -> bool {
    let Cut { region, size, .. } = cut;
    if tile.dim() != at.dim() || tile.kind() != sums.kind() {
        return false;
    }
    if !meets(at, region) || !is_scalable(region.dim(), size) {
        return false;
    }
    sums.add_tile(tile, at, region, size);
    true
}

/// Adds sums to others, or says that they are of another kind.
pub(crate) fn merge(sums: &mut Sums, more: &Sums) -> bool {
    if sums.kind() != more.kind() {
        return false;
    }
    sums.merge(more);
    true
}

/// Whether the sums of a tile are what the plain way gives; they are added to the others.
fn merge_tile(
    alloc: Global,
    sums: &mut Sums,
    picture: &Raster,
    tile: &Raster,
    at: Rect,
    cut: Cut,
) -> bool {
    let Some(part) = sums_of(alloc, tile, at, cut) else {
        return false;
    };
    has_plain_sums(&part, picture, at, cut) && merge(sums, &part)
}

/// Whether a tile comes into sums.
fn put_tile(
    alloc: Global,
    sums: &mut Sums,
    picture: &Raster,
    at: Rect,
    cut: Cut,
    way: Way,
) -> bool {
    let Some(tile) = cropped(picture, at) else {
        return false;
    };
    match way {
        Way::Merged => merge_tile(alloc, sums, picture, &tile, at, cut),
        Way::Added => add(sums, &tile, at, cut),
    }
}

/// Whether all tiles of the region come into sums.
fn put_tiles(alloc: Global, sums: &mut Sums, picture: &Raster, cut: Cut, way: Way) -> bool {
    let dim = picture.dim();
    for row in 0..dim.h {
        for column in 0..dim.w {
            if let Some(at) = tile_at(dim, cut, column, row) {
                if !put_tile(alloc, sums, picture, at, cut, way) {
                    return false;
                }
            }
        }
    }
    true
}

/// Whether each sum is what the plain way gives for those places of the region that `at` has too.
fn has_plain_sums(sums: &Sums, picture: &Raster, at: Rect, cut: Cut) -> bool {
    let places = sums.rect();
    let mut values = sums.sums().iter();
    for j in 0..places.h {
        for i in 0..places.w {
            for channel in 0..picture.kind().channels() {
                let (x, y) = (places.x.wrapping_add(i), places.y.wrapping_add(j));
                let plain = area_plain::sum_at(picture, at, cut.region, cut.size, x, y, channel);
                if !is_same(&values.next().copied(), &Some(plain)) {
                    return false;
                }
            }
        }
    }
    values.next().is_none()
}

/// Whether the samples in a rectangle of result places are what the plain way gives.
fn has_plain_samples(made: &Raster, picture: &Raster, cut: Cut, part: Rect) -> bool {
    let Cut { region, size, .. } = cut;
    for j in 0..part.h {
        for i in 0..part.w {
            for channel in 0..picture.kind().channels() {
                let (x, y) = (part.x.wrapping_add(i), part.y.wrapping_add(j));
                let sum = area_plain::sum_at(picture, region, region, size, x, y, channel);
                if !is_same(
                    &sample_or_zero(made, i, j, channel),
                    &area_plain::average(region, sum),
                ) {
                    return false;
                }
            }
        }
    }
    is_same(&made.dim(), &part.dim())
        && is_same(&made.kind(), &picture.kind())
        && is_same(&made.depth(), &picture.depth())
}

/// The samples that come of sums over a region in a rectangle of result places.
fn finish(sums: &Sums, region: Rect, part: Rect, depth: Depth) -> Option<Raster> {
    let sides = region.dim();
    if !is_scalable(sides, sides) || !is_inside(part, sums.rect()) {
        return None;
    }
    let Ok(made) = sums.finish(sides, part, depth) else {
        return None;
    };
    Some(made)
}

/// Whether the samples that come of sums are what the plain way gives.
fn is_finished_plainly(sums: &Sums, picture: &Raster, cut: Cut, part: Rect) -> bool {
    match finish(sums, cut.region, part, picture.depth()) {
        Some(made) => has_plain_samples(&made, picture, cut, part),
        None => is_missing(),
    }
}

/// Whether the sums are what the plain way gives, and their samples, whole and row by row.
fn is_plain(sums: &Sums, picture: &Raster, cut: Cut) -> bool {
    let Rect { x, y, w, h } = sums.rect();
    if !has_plain_sums(sums, picture, cut.region, cut) {
        return false;
    }
    for j in 0..h {
        let row = Rect {
            x,
            y: y.wrapping_add(j),
            w,
            h: 1,
        };
        if !is_finished_plainly(sums, picture, cut, row) {
            return false;
        }
    }
    is_finished_plainly(sums, picture, cut, sums.rect())
}

/// Whether these samples, of as many bits, come of sums over a region in a rectangle of result places.
pub(crate) fn finishes_as(sums: &Sums, region: Rect, part: Rect, want: Span) -> bool {
    let depth = match want {
        Span::Eight(_) => Depth::Eight,
        Span::Sixteen(_) => Depth::Sixteen,
    };
    match finish(sums, region, part, depth) {
        Some(made) => is_same(&made.samples(), &want),
        None => is_missing(),
    }
}

/// The wanted sums.
#[derive(Clone, Copy)]
pub(crate) enum Want {
    /// The result of the plain way.
    Plain,
    /// These samples in a rectangle of result places.
    Samples(Rect, Span<'static>),
}

/// Whether the sums at a band of the region scaled to its size give what they are to: 0 at each place, and each tile of the picture.
pub(crate) fn is_right(
    alloc: Global,
    picture: &Raster,
    (cut, way): (Cut, Way),
    band: Rect,
    want: Want,
) -> bool {
    let Ok(mut sums) = Sums::zero(alloc, band, picture.kind()) else {
        return false;
    };
    if !put_tiles(alloc, &mut sums, picture, cut, way) || sums.rect() != band {
        return false;
    }
    match want {
        Want::Plain => is_plain(&sums, picture, cut),
        Want::Samples(part, samples) => finishes_as(&sums, cut.region, part, samples),
    }
}
