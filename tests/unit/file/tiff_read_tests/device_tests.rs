//! Devices that fail while files are read.

use super::byte_counter::ByteCounter;
use super::one_fault::OneFault;
use super::writer::{Field, PLAIN, write_file};
use super::{
    BLACK_IS_ZERO, EIGHT_BITS, FOUR_ROWS, Failed, LENGTH, MIDDLE, ONE_ROW, ONE_SAMPLE, PLAINLY,
    TILED, TILES, TWO_ROWS, WHOLE, WIDTH, read_part, shows,
};
use crate::fixtures::files::{SAMPLE, STEPS};
use crate::fixtures::{is_missing, is_same, is_unwanted};
use iiif_pixel::{Rect, Span};
use iiif_source::{FuseSource, MemSource, ReadFault, Source};
use iiif_tiff_read::{LoadFault, OpenFault};
use std::alloc::Global;

/// Whether this is the first fault of the device while an image is opened and its middle is read.
fn fails_so<S: Source<()>>(alloc: Global, source: &S, want: Option<ReadFault>) -> bool {
    match read_part(alloc, source, Some(MIDDLE)) {
        Ok(_) => want.is_none(),
        Err(Failed::Open(OpenFault::Source(fault))) => is_same(&want, &Some(fault)),
        Err(Failed::Load(LoadFault::Source(fault))) => is_same(&want, &Some(fault)),
        Err(fault) => is_unwanted(&fault),
    }
}

/// The numbers of the reads of the sample, counted from 1, and where it is read: the header, the number of entries, the entries, and two
/// rows of the middle.
static READS: [(u64, u64); 5] = [(1, 0), (2, 24), (3, 26), (4, 13), (5, 17)];

/// The sample in memory.
fn sample(alloc: Global) -> Option<MemSource> {
    match Vec::from_slice(alloc, &SAMPLE) {
        Ok(bytes) => Some(MemSource::new(bytes)),
        Err(_) => None,
    }
}

/// Whether the first fault of a device that fails from a read on is at this place, and is gone once the device is mended.
fn fails_until_mended(alloc: Global, read: u64, place: u64) -> bool {
    let Some(sample) = sample(alloc) else {
        return false;
    };
    let source = FuseSource::new(sample, read);
    let failed = fails_so(alloc, &source, Some(ReadFault { place, cause: 3 }));
    source.mend();
    failed && fails_so(alloc, &source, None)
}

#[test]
fn failing_reads_come_out_with_their_place_until_mended(rt: HostRuntime) {
    for (read, place) in READS.iter() {
        assert!(rt;
            fails_until_mended(rt.alloc(), *read, *place),
            "read {read}"
        );
    }
}

/// Whether one read that fails is the first fault, at this place.
fn fails_once(alloc: Global, read: u64, place: u64) -> bool {
    match sample(alloc) {
        Some(sample) => {
            let want = ReadFault { place, cause: 1 };
            fails_so(
                alloc,
                &OneFault::new(sample, read.wrapping_sub(1)),
                Some(want),
            )
        }
        None => is_missing(),
    }
}

#[test]
fn failed_reads_are_not_tried_again(rt: HostRuntime) {
    for (read, place) in READS.iter() {
        assert!(rt; fails_once(rt.alloc(), *read, *place), "read {read}");
    }
}

const TILE: Rect = Rect {
    x: 0,
    y: 0,
    w: 3,
    h: 3,
};

/// A file, a rectangle, its samples, and the read that isn't made any more.
#[derive(Clone, Copy)]
struct Together {
    fields: &'static [Field],
    bytes: &'static [u8],
    rect: Rect,
    samples: &'static [u8],
    read: u64,
}

/// Four rows of a strip are the fourth read of all; those of strips that stand one after another the fifth, behind one of the strips'
/// offsets; and a tile is the sixth: two reads more are those of the tiles' offsets and byte counts.
static TOGETHER: [Together; 4] = [
    Together {
        fields: FOUR_ROWS,
        bytes: &STEPS,
        rect: WHOLE,
        samples: &STEPS,
        read: 5,
    },
    Together {
        fields: TWO_ROWS,
        bytes: &STEPS,
        rect: WHOLE,
        samples: &STEPS,
        read: 6,
    },
    Together {
        fields: ONE_ROW,
        bytes: &STEPS,
        rect: WHOLE,
        samples: &STEPS,
        read: 6,
    },
    Together {
        fields: TILES,
        bytes: &TILED,
        rect: TILE,
        samples: &[0, 10, 20, 40, 50, 60, 80, 90, 100],
        read: 7,
    },
];

/// Whether the samples are read though a read, and all behind it, fail.
fn is_one_read(alloc: Global, together: &Together) -> bool {
    let Some(file) = write_file(alloc, PLAIN, together.fields, together.bytes) else {
        return false;
    };
    let source = FuseSource::new(MemSource::new(file), together.read);
    shows(
        alloc,
        &source,
        Some(together.rect),
        Span::Eight(together.samples),
    )
}

#[test]
fn rows_that_lie_together_are_one_read(rt: HostRuntime) {
    for (number, together) in TOGETHER.iter().enumerate() {
        assert!(rt; is_one_read(rt.alloc(), together), "file {number}");
    }
}

/// The picture in one strip, with twenty offsets and byte counts, of which the first ones count.
const TWENTY_STRIPS: &[Field] = &[
    WIDTH,
    LENGTH,
    EIGHT_BITS,
    PLAINLY,
    BLACK_IS_ZERO,
    Field(273, 4, &[0; 20]),
    ONE_SAMPLE,
    Field(278, 3, &[4]),
    Field(279, 4, &[16; 20]),
];

/// How many bytes are read of such a file until its whole picture is there; none where that isn't right.
fn bytes_read(alloc: Global) -> Option<u64> {
    let file = write_file(alloc, PLAIN, TWENTY_STRIPS, &STEPS)?;
    let source = ByteCounter::new(MemSource::new(file));
    shows(alloc, &source, Some(WHOLE), Span::Eight(&STEPS)).then_some(source.read())
}

/// The header has 8 bytes, the number of entries 2, the nine entries 12 each, one offset and one byte count 4 each, and the strip 16.
#[test]
fn no_more_bytes_are_read_than_are_needed(rt: HostRuntime) {
    assert!(rt; is_same(&bytes_read(rt.alloc()), &Some(142)));
}
