//! Pictures as plain data, and their rasters.

use crate::fixtures::rasters::{eight, sixteen};
use crate::fixtures::{files, is_same};
use iiif_pixel::{Depth, Dim, Kind, Raster, Rect, Span};
use std::alloc::Global;

/// A picture: its sides, its kind, and samples, of which it has as many as it needs, from the first on.
#[derive(Clone, Copy)]
pub(crate) struct Picture(pub(crate) Dim, pub(crate) Kind, pub(crate) Span<'static>);

/// The raster of a picture; none where memory or samples are wanted.
pub(crate) fn raster(alloc: Global, picture: Picture) -> Option<Raster> {
    let Picture(dim, kind, samples) = picture;
    let count = kind.count(dim)?;
    match samples {
        Span::Eight(bytes) => eight(alloc, dim, kind, bytes.get(..count)?),
        Span::Sixteen(words) => sixteen(alloc, dim, kind, words.get(..count)?),
    }
}

/// Whether a raster has just the sides, the kind (and so many channels), the depth and the samples of a picture.
pub(crate) fn is(raster: &Raster, want: Picture) -> bool {
    let Picture(dim, kind, samples) = want;
    let depth = match samples {
        Span::Eight(_) => Depth::Eight,
        Span::Sixteen(_) => Depth::Sixteen,
    };
    is_same(&raster.dim(), &dim)
        && is_same(&raster.kind(), &kind)
        && is_same(&raster.kind().channels(), &kind.channels())
        && is_same(&raster.depth(), &depth)
        && is_same(&raster.samples(), &samples)
}

/// The part of a raster in a rectangle.
pub(crate) fn cropped(source: &Raster, rect: Rect) -> Option<Raster> {
    if !rect.lies_in(source.dim()) {
        return None;
    }
    let Ok(part) = source.crop(rect) else {
        return None;
    };
    Some(part)
}

/// The sample picture: in column x and row y stands 10x + 40y.
pub(crate) const STEPS: Picture = Picture(
    Dim { w: 4, h: 4 },
    Kind::Gray,
    Span::Eight(&files::STEPS),
);
