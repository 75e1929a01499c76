//! Sources in memory, of files, and those that fail when told.

use crate::fixtures::{is_missing, is_same, is_unwanted};
use iiif_source::{FileSource, FuseSource, MemSource, OpenFile, ReadFault, Source};
use std::alloc::Global;
use std::fs::File;
use std::rt::Files;
use std::sync::{Arc, Wait};
use std::{fs, io};

/// A place, and the two bytes that are read from there on, or the cause of the fault of that read.
type Read = (u64, Result<[u8; 2], u8>);

const FIVE: [u8; 5] = [1, 2, 3, 4, 5];

/// Five bytes in memory.
fn five(alloc: Global) -> Option<MemSource> {
    match Vec::from_slice(alloc, &FIVE) {
        Ok(bytes) => Some(MemSource::new(bytes)),
        Err(_) => None,
    }
}

/// Two bytes of a source from a place on, where it has them.
fn two_at<R, S: Source<R>>(rt: &R, source: &S, at: u64) -> Result<[u8; 2], ReadFault> {
    let mut pair = [0; 2];
    let len = source.len();
    if len >= 2 && at <= len - 2 {
        source.read_at(rt, at, &mut pair)?;
    }
    Ok(pair)
}

/// Whether each read of a source gives what it is to, and the source has so many bytes before them and behind them.
fn gives<R, S: Source<R>>(rt: &R, source: &S, len: u64, reads: &[Read]) -> bool {
    for (place, to_come) in reads {
        let answer = match two_at(rt, source, *place) {
            Ok(pair) => Ok(pair),
            Err(fault) if fault.place == *place => Err(fault.cause),
            Err(_) => return false,
        };
        if !is_same(&answer, to_come) || !is_same(&source.len(), &len) {
            return false;
        }
    }
    is_same(&source.len(), &len)
}

/// Whether five bytes in memory give these reads.
fn memory_gives(alloc: Global, reads: &[Read]) -> bool {
    match five(alloc) {
        Some(source) => gives(&(), &source, 5, reads),
        None => is_missing(),
    }
}

/// Whether a source that fails from the second read on gives these reads, within one that fails from the ninth on.
fn fuses_give(alloc: Global, reads: &[Read]) -> bool {
    match five(alloc) {
        Some(five) => gives(&(), &FuseSource::new(FuseSource::new(five, 2), 9), 5, reads),
        None => is_missing(),
    }
}

/// Reads of five bytes at any place.
static IN_MEMORY: [Read; 2] = [(0, Ok([1, 2])), (3, Ok([4, 5]))];

/// Reads of these bytes within two fuses.
static WITHIN_FUSES: [Read; 2] = [(0, Ok([1, 2])), (1, Err(ReadFault::FUSE))];

/// From which read on a source fails, what is read of it before it is mended, and what then.
static FUSES: [(u64, &[Read], &[Read]); 5] = [
    (1, &[(2, Err(3)); 5], &[(1, Ok([2, 3])); 3]),
    (
        2,
        &[
            (2, Ok([3, 4])),
            (2, Err(3)),
            (2, Err(3)),
            (2, Err(3)),
            (2, Err(3)),
        ],
        &[(1, Ok([2, 3])); 3],
    ),
    (
        3,
        &[
            (2, Ok([3, 4])),
            (2, Ok([3, 4])),
            (2, Err(3)),
            (2, Err(3)),
            (2, Err(3)),
        ],
        &[(1, Ok([2, 3])); 3],
    ),
    (0, &[(2, Err(3))], &[(2, Ok([3, 4]))]),
    (1, &[], &[(3, Ok([4, 5]))]),
];

/// Whether a source that fails from a read on gives this until it is mended, and that then.
fn is_mended(alloc: Global, k: u64, before: &[Read], then: &[Read]) -> bool {
    let Some(five) = five(alloc) else {
        return false;
    };
    let source = FuseSource::new(five, k);
    let failed = gives(&(), &source, 5, before);
    source.mend();
    failed && gives(&(), &source, 5, then)
}

#[test]
fn fuse_fails_from_the_kth_read_until_it_is_mended(rt: HostRuntime) {
    assert!(rt; memory_gives(rt.alloc(), &IN_MEMORY));
    assert!(rt; fuses_give(rt.alloc(), &WITHIN_FUSES));
    for (k, before, then) in FUSES.iter() {
        assert!(rt; is_mended(rt.alloc(), *k, *before, *then), "k {k}");
    }
}

/// A file that has so many bytes once a source of it is made: its name and its bytes, whether it can be read, and what is read.
#[derive(Clone, Copy)]
struct Opened {
    name: &'static str,
    bytes: &'static [u8],
    is_read: bool,
    len: u64,
    reads: &'static [Read],
}

static FILES: [Opened; 3] = [
    Opened {
        name: "iiif_source_read",
        bytes: &FIVE,
        is_read: true,
        len: 5,
        reads: &[(3, Ok([4, 5])), (0, Ok([1, 2]))],
    },
    Opened {
        name: "iiif_source_cut",
        bytes: &FIVE,
        is_read: true,
        len: 4,
        reads: &[(3, Err(2)), (2, Ok([3, 4]))],
    },
    Opened {
        name: "iiif_source_write_only",
        bytes: &[1, 2, 3],
        is_read: false,
        len: 3,
        reads: &[(1, Err(1))],
    },
];

/// An open file, whose name is gone.
fn open_file<R: Files<File = File>>(rt: &R, file: &Opened) -> io::Result<File> {
    fs::write(rt, file.name, file.bytes)?;
    let mut options = File::options();
    let open = options.read(file.is_read).write(true).open(rt, file.name)?;
    fs::remove_file(rt, file.name)?;
    Ok(open)
}

/// A source of a file, which is cut then.
fn cut<R: Files<File = File>>(rt: &R, alloc: Global, file: &Opened) -> io::Result<FileSource<R>> {
    let handle = open_file(rt, file)?;
    let second = handle.try_clone()?;
    let path = Arc::new(alloc, String::from_str(alloc, file.name)?)?;
    let source = FileSource::new(rt, OpenFile { path, handle })?;
    second.set_len(file.len)?;
    Ok(source)
}

/// Whether a file gives its reads.
fn file_gives<R: Files<File = File> + Wait + AllocGlobal>(rt: &R, file: &Opened) -> bool {
    match cut(rt, rt.alloc(), file) {
        Ok(source) => gives(rt, &source, file.bytes.len() as u64, file.reads),
        Err(fault) => is_unwanted(&fault),
    }
}

/// Whether a source that fails from the ninth read on gives the first fault of what is inside.
fn fuse_gives<R: Files<File = File> + Wait + AllocGlobal>(
    rt: &R,
    file: &Opened,
    reads: &[Read],
) -> bool {
    match cut(rt, rt.alloc(), file) {
        Ok(source) => gives(rt, &FuseSource::new(source, 9), 5, reads),
        Err(fault) => is_unwanted(&fault),
    }
}

/// The fault that a fuse hands on.
static HANDED_ON: [Read; 1] = [(3, Err(2))];

#[test]
fn files_give_their_bytes_or_a_fault(rt: HostRuntime) {
    for (number, file) in FILES.iter().enumerate() {
        assert!(rt; file_gives(&rt, file), "file {number}");
    }
    assert!(rt; fuse_gives(&rt, &FILES[1], &HANDED_ON));
}
