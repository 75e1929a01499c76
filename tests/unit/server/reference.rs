//! The image that a request comes to, from the whole of its region as one tile. It is what the answers of a node are compared
//! with.

use iiif_area::Sums;
use iiif_canonical::Resolved;
use iiif_pixel::laws::{bands_follow, whole_stays_whole};
use iiif_pixel::{Dim, NoMemory, Raster, Rect};
use iiif_source::Source;
use iiif_tiff_read::{Layout, LoadFault};
use std::alloc::Global;

/// The rectangle that is all of a picture with these sides.
fn whole(dim: Dim) -> Rect {
    Rect {
        x: 0,
        y: 0,
        w: dim.w,
        h: dim.h,
    }
}

/// A region scaled to other sides, its sums taken as those of one tile.
fn scaled(alloc: Global, region: &Raster, size: Dim) -> Result<Raster, NoMemory> {
    let sides = region.dim();
    // What is known of each raster, and laws of pictures.
    region.is_whole();
    bands_follow();
    whole_stays_whole();
    let sums = Sums::of_tile(alloc, region, whole(sides), whole(sides), size)?;
    let scaled = sums.finish(sides, whole(size), region.depth())?;
    Ok(scaled)
}

/// The image that a request comes to: the rectangle of the source, scaled, turned, in its quality.
pub(crate) fn plain_render<R, S: Source<R>>(
    rt: &R,
    alloc: Global,
    source: &S,
    layout: &Layout,
    resolved: &Resolved,
) -> Result<Raster, LoadFault> {
    let region = layout.read_rect(rt, source, resolved.rect)?;
    let scaled = scaled(alloc, &region, resolved.size)?;
    let turned = scaled.turn(resolved.turn)?;
    let image = turned.quality(resolved.quality)?;
    Ok(image)
}
