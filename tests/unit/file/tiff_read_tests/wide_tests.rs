//! Rows of a tile that are far longer than what is asked for: what lies together in a row is read together.

use super::writer::{Field, PLAIN, write_file};
use super::{BLACK_IS_ZERO, EIGHT_BITS, ONE_SAMPLE, PLAINLY};
use crate::file::steps::{open, open_files};
use crate::fixtures::{is_missing, is_same, is_unwanted};
use iiif_open_files::{Contents, Failing, MemFile, MemFiles, Opens, PathSource};
use iiif_pixel::{Raster, Rect, Span};
use iiif_tiff_read::{Layout, open as open_layout};
use std::alloc::Global;
use std::marker::Brand;
use std::sync::Wait;
use std::test::Fail;

/// An image of 4,096 by 2 in one tile of 1,048,576 by 2.
const WIDE: &[Field] = &[
    Field(256, 4, &[4_096]),
    Field(257, 3, &[2]),
    EIGHT_BITS,
    PLAINLY,
    BLACK_IS_ZERO,
    ONE_SAMPLE,
    Field(322, 4, &[1_048_576]),
    Field(323, 3, &[2]),
    Field(324, 4, &[0]),
    Field(325, 4, &[2_097_152]),
];

/// The sample of a pixel: no period of it divides a tile or a row.
fn sample(x: u32, y: u32) -> u8 {
    ((x + y * 1_048_576) % 251) as u8
}

/// The samples of the tile, padding too.
fn samples(alloc: Global) -> Result<Vec<u8>, Fail> {
    let mut samples = Vec::with_capacity(alloc, 2_097_152)?;
    for y in 0..2 {
        for x in 0..1_048_576 {
            samples.push(sample(x, y))?;
        }
    }
    Ok(samples)
}

/// Whether a part that is 256 wide has its samples.
fn is_part(raster: &Raster, left: u32) -> bool {
    let Span::Eight(samples) = raster.samples() else {
        return false;
    };
    let mut place = 0;
    for y in 0..2 {
        for x in left..left + 256 {
            if samples.get(place) != Some(&sample(x, y)) {
                return false;
            }
            place += 1;
        }
    }
    is_same(&place, &samples.len())
}

/// Whether the sixteen parts beside one another are read, and have their samples.
fn are_read<R: Opens + Wait>(rt: &R, layout: &Layout, source: &PathSource<R>) -> bool {
    for part in 0..16 {
        let rect = Rect {
            x: part * 256,
            y: 0,
            w: 256,
            h: 2,
        };
        match layout.read_rect(rt, source, rect) {
            Ok(raster) if is_part(&raster, rect.x) => {}
            Ok(_) => return false,
            Err(fault) => return is_unwanted(&fault),
        }
    }
    true
}

/// How many reads the sixteen parts take, of a file in memory.
fn reads<W: Wait, C: Contents>(host: &W, alloc: Global) -> Result<Option<u64>, Fail> {
    let Some(file) = write_file(alloc, PLAIN, WIDE, &samples(alloc)?) else {
        is_missing();
        return Ok(None);
    };
    let mut held = Vec::new(alloc);
    held.push(MemFile::<C>::new(String::from_str(alloc, "1")?, file))?;
    let rt = MemFiles::new(host, held, Failing::Never);
    let files = open_files(alloc, 1)?;
    let source = open(&rt, alloc, &files, "1")??;
    let Ok(layout) = open_layout(&rt, alloc, &source) else {
        return Ok(None);
    };
    let before = rt.reads();
    if !are_read(&rt, &layout, &source) {
        return Ok(None);
    }
    Ok(Some(rt.reads() - before))
}

/// Of each of two rows eight parts' bytes are read at once: four reads in place of 32.
#[test]
fn parts_beside_one_another_are_read_together(rt: HostRuntime) -> Result<(), Fail> {
    assert!(rt; is_same(&reads::<_, Brand>(&rt, rt.alloc())?, &Some(4)));
    Ok(())
}
