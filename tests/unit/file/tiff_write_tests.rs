//! Files of small pictures, byte by byte.

use crate::fixtures::files::{SAMPLE_FILE, STEPS};
use crate::fixtures::rasters::{eight, sixteen};
use crate::fixtures::{is_missing, is_same, is_same_text, is_unwanted};
use iiif_pixel::{Depth, Dim, Kind, Quality, Raster, Rect, Samples, Span};
use iiif_tiff_write::{OutKind, fits, head, put_rows, total_len};
use std::alloc::Global;
use std::test::Fail;

/// A picture: its sides, its kind and its samples.
#[derive(Clone, Copy)]
struct Picture(u32, u32, Kind, Span<'static>);

/// The raster of a picture.
fn raster(alloc: Global, picture: Picture) -> Option<Raster> {
    let Picture(w, h, kind, samples) = picture;
    match samples {
        Span::Eight(few) => eight(alloc, Dim { w, h }, kind, few),
        Span::Sixteen(deep) => sixteen(alloc, Dim { w, h }, kind, deep),
    }
}

/// Puts the rows of a picture that has the channels and the depth of its file, or says that it doesn't.
fn put(picture: &Raster, kind: OutKind, bytes: &mut Vec<u8>) -> bool {
    if picture.kind().channels() != usize::from(kind.samples_per_pixel()) {
        return false;
    }
    is_same(&picture.depth(), &kind.depth()) && put_rows(picture, kind, bytes).is_ok()
}

/// Head and rows, one after another, as many bytes as they are said to be.
fn file(alloc: Global, picture: &Raster, kind: OutKind) -> Option<Vec<u8>> {
    let dim = picture.dim();
    if !fits(kind, dim) {
        return None;
    }
    let Ok(mut bytes) = Vec::from_slice(alloc, head(kind, dim).as_slice()) else {
        return None;
    };
    if put(picture, kind, &mut bytes) && bytes.len() as u64 == total_len(kind, dim) {
        Some(bytes)
    } else {
        None
    }
}

/// Whether bytes are so many, and have each part at its place.
fn have(bytes: &[u8], len: usize, parts: &[(usize, &[u8])]) -> bool {
    for (at, part) in parts {
        match bytes.get(*at..) {
            Some(rest) if rest.starts_with(*part) => {}
            _ => return false,
        }
    }
    is_same(&bytes.len(), &len)
}

const GRAY: Picture = Picture(4, 4, Kind::Gray, Span::Eight(&STEPS));

/// Pictures, as what they are written, how long their files are, and what stands where in these. The third entry of a directory is
/// BitsPerSample; samples of 16 bits have their low byte first, and rows of bits end at whole bytes: white is 128 and above.
static FILES: [(Picture, OutKind, usize, &[(usize, &[u8])]); 6] = [
    (GRAY, OutKind::Gray, 190, &[(0, &SAMPLE_FILE)]),
    (
        Picture(2, 1, Kind::Rgb, Span::Eight(&[2, 0, 0, 0, 0, 0])),
        OutKind::Rgb,
        186,
        &[(174, &[8, 0, 8, 0, 8, 0, 2, 0, 0, 0, 0, 0])],
    ),
    (
        Picture(2, 1, Kind::Gray, Span::Sixteen(&[0, 65_535])),
        OutKind::Gray16,
        178,
        &[
            (34, &[2, 1, 3, 0, 1, 0, 0, 0, 16, 0, 0, 0]),
            (174, &[0, 0, 0xff, 0xff]),
        ],
    ),
    (
        Picture(1, 1, Kind::Rgb, Span::Sixteen(&[1, 515, 65_534])),
        OutKind::Rgb16,
        186,
        &[(174, &[16, 0, 16, 0, 16, 0, 1, 0, 3, 2, 254, 255])],
    ),
    (
        Picture(9, 1, Kind::Gray, Span::Eight(&[255; 9])),
        OutKind::Bitonal,
        176,
        &[(174, &[0xff, 0x80])],
    ),
    (
        Picture(
            10,
            1,
            Kind::Gray,
            Span::Eight(&[127, 128, 0, 255, 1, 254, 127, 128, 128, 0]),
        ),
        OutKind::Bitonal,
        176,
        &[(174, &[0x55, 0x80])],
    ),
];

/// Whether the file of a raster has so many bytes, and each part at its place.
fn is_written(
    alloc: Global,
    picture: &Raster,
    kind: OutKind,
    len: usize,
    parts: &[(usize, &[u8])],
) -> bool {
    match file(alloc, picture, kind) {
        Some(bytes) => have(&bytes, len, parts),
        None => is_missing(),
    }
}

/// The file of a picture.
fn picture_is_written(
    alloc: Global,
    picture: Picture,
    kind: OutKind,
    len: usize,
    parts: &[(usize, &[u8])],
) -> bool {
    match raster(alloc, picture) {
        Some(picture) => is_written(alloc, &picture, kind, len, parts),
        None => is_missing(),
    }
}

#[test]
fn files_have_these_bytes(rt: HostRuntime) {
    for (number, (picture, kind, len, parts)) in FILES.iter().enumerate() {
        assert!(rt;
            picture_is_written(rt.alloc(), *picture, *kind, *len, *parts),
            "file {number}"
        );
    }
}

/// A picture in black and white.
fn bitonal(alloc: Global, picture: Picture) -> Option<Raster> {
    match raster(alloc, picture)?.quality(Quality::Bitonal) {
        Ok(bitonal) => Some(bitonal),
        Err(_) => None,
    }
}

/// Whether the file of a picture in black and white has so many bytes, and each part at its place.
fn is_written_in_bits(
    alloc: Global,
    picture: Picture,
    len: usize,
    parts: &[(usize, &[u8])],
) -> bool {
    match bitonal(alloc, picture) {
        Some(bitonal) => is_written(alloc, &bitonal, OutKind::Bitonal, len, parts),
        None => is_missing(),
    }
}

/// The rows of the sample in black and white.
static ROWS_OF_BITS: [(usize, &[u8]); 1] = [(174, &[0, 0, 0, 0x70])];

#[test]
fn rows_of_bits_end_at_whole_bytes(rt: HostRuntime) {
    assert!(rt; is_written_in_bits(rt.alloc(), GRAY, 178, &ROWS_OF_BITS));
}

/// The samples of three rows.
const ROWS: [u8; 27] = [
    255, 0, 255, 0, 0, 0, 0, 255, 255, 0, 0, 0, 0, 255, 255, 255, 0, 255, 9, 9, 9, 200, 200, 9, 9,
    9, 200,
];

/// Pictures of three rows, as what their rows are written, and the bytes of these.
static BANDS: [(Picture, OutKind, &[u8]); 3] = [
    (
        Picture(9, 3, Kind::Gray, Span::Eight(&ROWS)),
        OutKind::Gray,
        &ROWS,
    ),
    (
        Picture(3, 3, Kind::Rgb, Span::Eight(&ROWS)),
        OutKind::Rgb,
        &ROWS,
    ),
    (
        Picture(9, 3, Kind::Gray, Span::Eight(&ROWS)),
        OutKind::Bitonal,
        &[0xa1, 0x80, 0x0e, 0x80, 0x18, 0x80],
    ),
];

/// Puts some rows of a picture, or says that it doesn't.
fn put_band(picture: &Raster, y: u32, h: u32, kind: OutKind, out: &mut Vec<u8>) -> bool {
    let w = picture.dim().w;
    let rect = Rect { x: 0, y, w, h };
    if !rect.lies_in(picture.dim()) {
        return false;
    }
    match picture.crop(rect) {
        Ok(band) => put(&band, kind, out),
        Err(fault) => is_unwanted(&fault),
    }
}

/// Whether two bands of a picture of three rows are these bytes.
fn bands_are(alloc: Global, picture: &Raster, kind: OutKind, want: &[u8]) -> bool {
    let mut bands = Vec::new(alloc);
    is_same(&picture.dim().h, &3)
        && put_band(picture, 0, 1, kind, &mut bands)
        && put_band(picture, 1, 2, kind, &mut bands)
        && is_same_text(bands.as_slice(), want)
}

/// Compares two bands of a picture of three rows with these bytes.
fn bands_of_picture_are(alloc: Global, picture: Picture, kind: OutKind, want: &[u8]) -> bool {
    match raster(alloc, picture) {
        Some(picture) => bands_are(alloc, &picture, kind, want),
        None => is_missing(),
    }
}

#[test]
fn bands_make_the_same_strip(rt: HostRuntime) {
    for (number, (picture, kind, want)) in BANDS.iter().enumerate() {
        assert!(rt;
            bands_of_picture_are(rt.alloc(), *picture, *kind, *want),
            "picture {number}"
        );
    }
}

/// As what the sample's rows are written, and the bytes of these.
static REFUSED_ROWS: [(OutKind, &[u8]); 2] = [
    (OutKind::Gray, &STEPS),
    (OutKind::Bitonal, &[0, 0, 0, 0x70]),
];

/// Whether a vector that has bytes has rows behind them. Where they are refused it has its bytes alone, and they are put once more.
fn has_rows_again(picture: &Raster, kind: OutKind, out: &mut Vec<u8>, rows: &[u8]) -> bool {
    let is_put = put(picture, kind, out)
        || have(out, 3, &[(0, &[1, 2, 3])]) && put(picture, kind, out);
    is_put
        && have(
            out,
            rows.len().wrapping_add(3),
            &[(0, &[1, 2, 3]), (3, rows)],
        )
}

/// With ample memory the rows are put at once. `tests/refused` runs this with the first growth refused, with the second, and so on.
#[test]
fn rows_are_put_after_a_refused_growth(rt: HostRuntime) -> Result<(), Fail> {
    // Each is made once more where it was refused.
    let gray = match raster(rt.alloc(), GRAY) {
        Some(gray) => gray,
        None => raster(rt.alloc(), GRAY).ok_or("out of memory")?,
    };
    for (kind, rows) in REFUSED_ROWS.iter() {
        let mut out = match Vec::from_slice(rt.alloc(), &[1, 2, 3]) {
            Ok(out) => out,
            Err(_) => Vec::from_slice(rt.alloc(), &[1, 2, 3])?,
        };
        assert!(rt; has_rows_again(&gray, *kind, &mut out, *rows));
    }
    Ok(())
}

static QUALITIES: [(Kind, Depth, Quality, OutKind); 12] = [
    (Kind::Gray, Depth::Eight, Quality::Default, OutKind::Gray),
    (Kind::Gray, Depth::Eight, Quality::Color, OutKind::Gray),
    (Kind::Gray, Depth::Eight, Quality::Gray, OutKind::Gray),
    (Kind::Gray, Depth::Eight, Quality::Bitonal, OutKind::Bitonal),
    (Kind::Rgb, Depth::Eight, Quality::Default, OutKind::Rgb),
    (Kind::Rgb, Depth::Eight, Quality::Color, OutKind::Rgb),
    (Kind::Rgb, Depth::Eight, Quality::Gray, OutKind::Gray),
    (Kind::Rgb, Depth::Eight, Quality::Bitonal, OutKind::Bitonal),
    (
        Kind::Gray,
        Depth::Sixteen,
        Quality::Default,
        OutKind::Gray16,
    ),
    (Kind::Rgb, Depth::Sixteen, Quality::Color, OutKind::Rgb16),
    (Kind::Rgb, Depth::Sixteen, Quality::Gray, OutKind::Gray16),
    (
        Kind::Gray,
        Depth::Sixteen,
        Quality::Bitonal,
        OutKind::Bitonal,
    ),
];

#[test]
fn kinds_of_the_qualities(rt: HostRuntime) {
    for (number, (source, depth, quality, want)) in QUALITIES.iter().enumerate() {
        assert!(rt;
            is_same(&OutKind::for_quality(*source, *depth, *quality), want),
            "case {number}"
        );
    }
}

/// 65,536 by 65,535 gray samples are 2^32 - 65,536 bytes, and 65,536 by 21,845 places of RGB the same.
static SIDES: [(OutKind, u32, u32, bool); 9] = [
    (OutKind::Gray, 65536, 65535, true),
    (OutKind::Gray, 65536, 65536, false),
    (OutKind::Rgb, 65536, 21845, true),
    (OutKind::Rgb, 65536, 21846, false),
    (OutKind::Bitonal, 65536, 65536, true),
    (OutKind::Bitonal, 4294967288, 8, false),
    (OutKind::Rgb, u32::MAX, u32::MAX, false),
    (OutKind::Rgb, 16384, 16384, true),
    (OutKind::Gray, 0, u32::MAX, true),
];

#[test]
fn offsets_of_four_bytes(rt: HostRuntime) {
    for (kind, w, h, want) in SIDES.iter() {
        assert!(rt;
            is_same(&fits(*kind, Dim { w: *w, h: *h }), want),
            "{w} {h}"
        );
    }
}
