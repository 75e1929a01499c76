//! Files that are opened and read again once a growth of memory was refused: the answer is lack of memory, what was there stays, and the
//! second call gives the case's own answer. `tests/refused` runs each test with the first growth refused, with the second, and so on;
//! with ample memory each call answers at once.

use crate::fixtures::files::SAMPLE;
use crate::fixtures::{is_missing, is_same};
use iiif_pixel::{Raster, Rect, Span};
use iiif_source::MemSource;
use iiif_tiff_read::{Layout, OpenFault, open};
use std::alloc::Global;

/// The sample's bytes, where they are asked for once more if memory was wanted.
fn sample(alloc: Global) -> Option<Vec<u8>> {
    match Vec::from_slice(alloc, &SAMPLE) {
        Ok(bytes) => Some(bytes),
        Err(_) => match Vec::from_slice(alloc, &SAMPLE) {
            Ok(bytes) => Some(bytes),
            Err(_) => None,
        },
    }
}

/// The sample's file, up to so many bytes, with one byte changed.
fn edited(alloc: Global, len: usize, at: usize, byte: u8) -> Option<MemSource> {
    let mut bytes = sample(alloc)?;
    if let Some(here) = bytes.get_mut(at) {
        *here = byte;
    }
    bytes.truncate(len);
    Some(MemSource::new(bytes))
}

/// Opens a source: its layout, a refusal, or once more where memory was wanted.
fn opened_again(alloc: Global, source: &MemSource) -> Result<Layout, OpenFault> {
    match open(&(), alloc, source) {
        Err(OpenFault::NoMemory) => open(&(), alloc, source),
        answer => answer,
    }
}

/// How much of the sample's file there is, which byte is another, and the fault: none; cut inside its directory; compressed; with two
/// rows a strip and one strip.
static EDITED: [(usize, usize, u8, Option<OpenFault>); 6] = [
    (138, 0, 73, None),
    (23, 0, 73, Some(OpenFault::Truncated)),
    (133, 0, 73, Some(OpenFault::Truncated)),
    (138, 70, 5, Some(OpenFault::Unsupported(259))),
    (138, 118, 2, Some(OpenFault::BadField(273))),
    (138, 130, 15, Some(OpenFault::BadField(279))),
];

/// Whether a file is opened, or refused for this reason.
fn is_opened(alloc: Global, len: usize, at: usize, byte: u8, fault: Option<OpenFault>) -> bool {
    match edited(alloc, len, at, byte) {
        Some(source) => is_same(&opened_again(alloc, &source).err(), &fault),
        None => is_missing(),
    }
}

#[test]
fn file_is_opened_after_a_refused_growth(rt: HostRuntime) {
    for (number, (len, at, byte, fault)) in EDITED.iter().enumerate() {
        assert!(rt;
            is_opened(rt.alloc(), *len, *at, *byte, *fault),
            "file {number}"
        );
    }
}

/// The middle of the sample, where memory is not wanted.
fn middle(alloc: Global, source: &MemSource) -> Option<Raster> {
    let rect = Rect {
        x: 1,
        y: 1,
        w: 2,
        h: 2,
    };
    let Ok(layout) = open(&(), alloc, source) else {
        return None;
    };
    if !rect.lies_in(layout.dim()) {
        return None;
    }
    match layout.read_rect(&(), source, rect) {
        Ok(raster) => Some(raster),
        Err(_) => None,
    }
}

/// Reads a part, once more if memory was wanted.
fn middle_again(alloc: Global, source: &MemSource) -> Option<Raster> {
    match middle(alloc, source) {
        Some(raster) => Some(raster),
        None => middle(alloc, source),
    }
}

/// Whether these are the samples of the middle.
fn shows_its_middle(alloc: Global, samples: &[u8]) -> bool {
    let Some(source) = edited(alloc, 138, 0, 73) else {
        return false;
    };
    match middle_again(alloc, &source) {
        Some(raster) => is_same(&raster.samples(), &Span::Eight(samples)),
        None => is_missing(),
    }
}

#[test]
fn samples_are_read_after_a_refused_growth(rt: HostRuntime) {
    assert!(rt; shows_its_middle(rt.alloc(), &[50, 60, 90, 100]));
}
