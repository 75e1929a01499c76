//! Images that are made of tiles and blocks, beside those of whole regions.

use crate::fixtures::rasters::is_scalable;
use crate::server::cases::{Ask, Case, NODE, Setup, Text, Variant, Want};
use crate::server::drawn::Drawn;
use crate::server::nodes::wrong_variant;
use crate::server::reference::plain_render;
use iiif_canonical::Resolved;
use iiif_pixel::{Dim, Kind, Quality, Raster, Rect, Span, Turn};
use iiif_source::MemSource;
use iiif_tiff_read::open;
use iiif_tiff_write::OutKind;
use std::alloc::Global;
use std::sync::Wait;
use std::thread::Threads;
use std::time::Clock;

/// The file of a picture 7 by 5, whose samples are so many steps apart. A depth of eight bits has the low byte of each.
fn file(alloc: Global, out: OutKind, step: u16) -> Option<Vec<u8>> {
    let kind = match out {
        OutKind::Rgb | OutKind::Rgb16 => Kind::Rgb,
        _ => Kind::Gray,
    };
    let mut samples = Vec::new(alloc);
    let mut sample = 9u16;
    for _ in 0..35 * kind.channels() {
        samples.push(sample).ok()?;
        sample = sample.wrapping_add(step);
    }
    let picture = Drawn {
        sides: [7, 5],
        kind,
        out,
        samples: &samples,
    };
    picture.file(alloc)
}

/// The image that a request comes to, from the whole of its region.
fn plain_image(alloc: Global, source: &MemSource, resolved: &Resolved) -> Option<Raster> {
    let Ok(layout) = open(&(), alloc, source) else {
        return None;
    };
    if !resolved.rect.lies_in(layout.dim())
        || !is_scalable(resolved.rect.dim(), resolved.size)
        || resolved.turn.quarters >= 4
    {
        return None;
    }
    plain_render(&(), alloc, source, &layout, resolved).ok()
}

/// The samples of an image, as they stand in its file.
fn stored(alloc: Global, image: &Raster) -> Option<Vec<u8>> {
    let mut bytes = Vec::new(alloc);
    match image.samples() {
        Span::Eight(samples) => bytes.extend_from_slice(samples).ok()?,
        Span::Sixteen(samples) => {
            for sample in samples {
                bytes.extend_from_slice(&sample.to_le_bytes()).ok()?;
            }
        }
    }
    Some(bytes)
}

/// A request and what it comes to: its rectangle, its sides, its turn, its quality.
type Request = (&'static [u8], [u32; 4], [u32; 2], (bool, u8), Quality);

/// Requests of a picture 7 by 5: kept at their sides, scaled, turned, and at the picture's edges.
static REQUESTS: [Request; 7] = [
    (
        b"/iiif/a/full/max/0/default.tif",
        [0, 0, 7, 5],
        [7, 5],
        (false, 0),
        Quality::Default,
    ),
    (
        b"/iiif/a/1,1,5,3/max/90/default.tif",
        [1, 1, 5, 3],
        [5, 3],
        (false, 1),
        Quality::Default,
    ),
    (
        b"/iiif/a/6,4,1,1/max/0/default.tif",
        [6, 4, 1, 1],
        [1, 1],
        (false, 0),
        Quality::Default,
    ),
    (
        b"/iiif/a/full/3,2/0/default.tif",
        [0, 0, 7, 5],
        [3, 2],
        (false, 0),
        Quality::Default,
    ),
    (
        b"/iiif/a/1,1,5,3/2,2/!90/default.tif",
        [1, 1, 5, 3],
        [2, 2],
        (true, 1),
        Quality::Default,
    ),
    (
        b"/iiif/a/2,0,5,5/5,1/0/gray.tif",
        [2, 0, 5, 5],
        [5, 1],
        (false, 0),
        Quality::Gray,
    ),
    (
        b"/iiif/a/full/1,1/0/default.tif",
        [0, 0, 7, 5],
        [1, 1],
        (false, 0),
        Quality::Default,
    ),
];

/// Resolves a request.
fn resolved(request: &Request) -> Resolved {
    let (_, [x, y, w, h], [width, height], (mirror, quarters), quality) = *request;
    Resolved {
        rect: Rect { x, y, w, h },
        size: Dim {
            w: width,
            h: height,
        },
        turn: Turn { mirror, quarters },
        quality,
    }
}

/// The samples of the image that a request of a file comes to, as they stand in its file.
fn samples_of(alloc: Global, file: &[u8], request: &Request) -> Option<Vec<u8>> {
    let source = MemSource::new(Vec::from_slice(alloc, file).ok()?);
    stored(alloc, &plain_image(alloc, &source, &resolved(request))?)
}

/// The targets of all requests, and the samples of their images.
type Images = Vec<(&'static [u8], Vec<u8>)>;

/// The targets of all requests, and the samples of their images of a file.
fn images_of(alloc: Global, file: &[u8]) -> Option<Images> {
    let mut images = Vec::new(alloc);
    for request in &REQUESTS {
        images
            .push((request.0, samples_of(alloc, file, request)?))
            .ok()?;
    }
    Some(images)
}

/// The bodies of the requests, with these samples.
fn asks(alloc: Global, images: &Images) -> Option<Vec<Case<'_>>> {
    let mut cases = Vec::new(alloc);
    for (target, samples) in images {
        let want = Want::Whole(200, Text::Framed(b"", samples));
        cases.push((Ask::Body(target), want)).ok()?;
    }
    Some(cases)
}

/// Tiles of the edges 1 to 8.
const EDGES: &[Variant] = &[
    (1, 64, 2, 65_536),
    (2, 64, 2, 65_536),
    (3, 64, 2, 65_536),
    (4, 64, 2, 65_536),
    (5, 64, 2, 65_536),
    (6, 64, 2, 65_536),
    (7, 64, 2, 65_536),
    (8, 64, 2, 65_536),
];

/// Whether each request of a picture is answered by the image that it comes to, by one node for each edge.
fn are_answered<R: Threads + Wait + Clock + Sync + AllocGlobal>(
    rt: &R,
    picture: &(OutKind, u16),
) -> Option<bool> {
    let file = file(rt.alloc(), picture.0, picture.1)?;
    let images = images_of(rt.alloc(), &file)?;
    let cases = asks(rt.alloc(), &images)?;
    let base = Setup {
        file: &file,
        k: 10_000,
        ..NODE
    };
    Some(wrong_variant(rt, &base, EDGES, &cases).is_none())
}

/// Kinds of pictures, and how many steps their samples are apart.
static PICTURES: [(OutKind, u16); 4] = [
    (OutKind::Gray, 37),
    (OutKind::Rgb, 101),
    (OutKind::Gray16, 9_973),
    (OutKind::Rgb16, 25_999),
];

#[test]
fn tiles_and_blocks_make_what_whole_regions_make(rt: HostRuntime) {
    for picture in &PICTURES {
        assert!(rt; are_answered(&rt, picture) == Some(true), "{}", picture.1);
    }
}
