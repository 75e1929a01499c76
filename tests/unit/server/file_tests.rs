//! Files that are written and read back, and an answer of many megabytes.

use crate::fixtures::is_same;
use crate::server::cases::{Ask, NODE, Setup, Text, Verb, WHOLE, Want};
use crate::server::drawn::{Drawn, STEPS};
use crate::server::nodes::are_right;
use iiif_pixel::{Dim, Kind, Raster, Rect};
use iiif_source::MemSource;
use iiif_tiff_read::open;
use iiif_tiff_write::{OutKind, fits, head};
use std::alloc::Global;
use std::sync::Wait;
use std::thread::Threads;
use std::time::Clock;

/// Whether a file is opened as one of a picture's sides, kind and depth, and has its samples.
fn has_samples(alloc: Global, file: Vec<u8>, raster: &Raster) -> Option<bool> {
    let source = MemSource::new(file);
    let Ok(layout) = open(&(), alloc, &source) else {
        return None;
    };
    let sides = layout.dim();
    let whole = Rect {
        x: 0,
        y: 0,
        w: sides.w,
        h: sides.h,
    };
    if !is_same(&sides, &raster.dim())
        || !is_same(&layout.kind(), &raster.kind())
        || !is_same(&layout.depth(), &raster.depth())
        || !whole.lies_in(sides)
    {
        return None;
    }
    let Ok(read) = layout.read_rect(&(), &source, whole) else {
        return None;
    };
    Some(is_same(&read.samples(), &raster.samples()))
}

/// A name, a picture, and whether its file has its samples.
type Written = (&'static str, Drawn<'static>, bool);

/// Whether the file of a picture has its samples, or not, as it is to.
fn is_written(alloc: Global, written: &Written) -> Option<bool> {
    let (_, picture, is_read) = written;
    let raster = picture.raster(alloc)?;
    Some(is_same(&has_samples(alloc, picture.file(alloc)?, &raster)?, is_read))
}

static PICTURES: [Written; 7] = [
    ("grays", STEPS, true),
    (
        "colors",
        Drawn {
            sides: [2, 1],
            kind: Kind::Rgb,
            out: OutKind::Rgb,
            samples: &[2, 0, 0, 0, 0, 0],
        },
        true,
    ),
    (
        "a row of bits",
        Drawn {
            sides: [9, 1],
            kind: Kind::Gray,
            out: OutKind::Bitonal,
            samples: &[255; 9],
        },
        true,
    ),
    // Two rows of two bytes each.
    (
        "two rows of bits",
        Drawn {
            sides: [10, 2],
            kind: Kind::Gray,
            out: OutKind::Bitonal,
            samples: &[
                255, 0, 255, 0, 0, 0, 0, 255, 255, 0, 255, 0, 0, 0, 255, 255, 255, 0, 0, 0,
            ],
        },
        true,
    ),
    // Bits don't hold the steps.
    (
        "bits of grays",
        Drawn {
            out: OutKind::Bitonal,
            ..STEPS
        },
        false,
    ),
    (
        "grays of 16 bits",
        Drawn {
            sides: [3, 2],
            kind: Kind::Gray,
            out: OutKind::Gray16,
            samples: &[0, 255, 256, 32_767, 32_768, 65_535],
        },
        true,
    ),
    (
        "colors of 16 bits",
        Drawn {
            sides: [1, 2],
            kind: Kind::Rgb,
            out: OutKind::Rgb16,
            samples: &[0, 255, 256, 32_767, 32_768, 65_535],
        },
        true,
    ),
];

#[test]
fn written_files_are_read_back(rt: HostRuntime) {
    for written in &PICTURES {
        assert!(rt;
            is_same(&is_written(rt.alloc(), written), &Some(true)),
            "{}",
            written.0
        );
    }
}

/// The file of a color image of 16 megabytes.
fn large(alloc: Global) -> Option<Vec<u8>> {
    let dim = Dim { w: 2048, h: 2731 };
    if !fits(OutKind::Rgb, dim) {
        return None;
    }
    let mut file = Vec::from_slice(alloc, head(OutKind::Rgb, dim).as_slice()).ok()?;
    for row in 0..2731u32 {
        for sample in 0..6144u32 {
            file.push((row.wrapping_mul(7).wrapping_add(sample) % 251) as u8)
                .ok()?;
        }
    }
    Some(file)
}

/// Whether that is answered whole.
fn is_large_answered<R: Threads + Wait + Clock + Sync + AllocGlobal>(rt: &R) -> Option<bool> {
    let file = large(rt.alloc())?;
    let setup = Setup {
        file: &file,
        edge: 1024,
        bytes: 67_108_864,
        ..NODE
    };
    let whole = Text::Framed(b"HTTP/1.1 200 OK\r\n", &file);
    let case = (Ask::Call(Verb::Get, WHOLE), Want::Whole(200, whole));
    Some(are_right(rt, &setup, &[case]))
}

#[test]
fn sixteen_megabytes_are_answered_whole(rt: HostRuntime) {
    assert!(rt; is_large_answered(&rt) == Some(true));
}
