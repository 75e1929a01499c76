//! Sources of files in memory, which keep their bytes: two by their names, and one where each read fails in turn.

use crate::file::steps::{
    Ask, Bytes, Outcome, Place, all_answer, bytes_of, is_answered, open, open_files,
};
use crate::fixtures::is_same;
use iiif_open_files::{Contents, Failing, MemFile, MemFiles, Opens, PathSource};
use iiif_source::ReadFault;
use std::alloc::Global;
use std::marker::Brand;
use std::sync::Wait;
use std::test::Fail;

/// Reads of two files of one length, in turn.
static BY_NAME: [(usize, Ask); 8] = [
    (0, Ask::Two(1, Ok([2, 1]))),
    (1, Ask::Two(1, Ok([5, 6]))),
    (0, Ask::Runs(3, (0, 100, 4, 8), Outcome::Right)),
    (1, Ask::Runs(4, (0, 100, 4, 8), Outcome::Right)),
    (0, Ask::Runs(3, (4, 100, 4, 20), Outcome::Right)),
    (1, Ask::Runs(4, (4, 100, 4, 20), Outcome::Right)),
    (1, Ask::Runs(3, (8, 100, 4, 8), Outcome::Wrong)),
    (0, Ask::Len(4000)),
];

/// Whether the files "1" and "2", of which one alone is kept open, answer what they are to.
fn two_answer<R: Opens + Wait>(rt: &R, alloc: Global) -> Result<bool, Fail> {
    let files = open_files(alloc, 1)?;
    let mut sources = Vec::new(alloc);
    sources.push(open(rt, alloc, &files, "1")??)?;
    sources.push(open(rt, alloc, &files, "2")??)?;
    Ok(all_answer(rt, &sources, &BY_NAME, 1) && is_same(&files.kept(rt), &1))
}

/// Reads two files in memory so.
fn two_in_memory<W: Wait, C: Contents>(
    host: &W,
    alloc: Global,
    one: Vec<u8>,
    two: Vec<u8>,
) -> Result<bool, Fail> {
    let mut held = Vec::new(alloc);
    held.push(MemFile::<C>::new(String::from_str(alloc, "1")?, one))?;
    held.push(MemFile::<C>::new(String::from_str(alloc, "2")?, two))?;
    two_answer(&MemFiles::new(host, held, Failing::Never), alloc)
}

#[test]
fn two_files_in_memory_are_told_apart(rt: HostRuntime) -> Result<(), Fail> {
    let one = bytes_of(rt.alloc(), Bytes::Numbered(3, 4000))?;
    let two = bytes_of(rt.alloc(), Bytes::Numbered(4, 4000))?;
    assert!(rt; two_in_memory::<_, Brand>(&rt, rt.alloc(), one, two)?);
    Ok(())
}

/// Reads of a file of rows of 100 bytes. The first asks of eight rows and of twenty read whole rows ahead, by one read; those
/// behind them find them; the third and the fourth ask for one run, which is read alone.
const SHORT_ROWS: &[Place] = &[
    (0, 100, 4, 8),
    (4, 100, 4, 8),
    (1, 100, 2, 1),
    (5, 100, 4, 1),
    (0, 100, 4, 20),
    (96, 100, 4, 20),
];

/// Reads of a file of rows of 5,000 bytes: 32 bytes of each of eight rows are read ahead, by a read a row. The second ask finds
/// them, the third reads on behind them.
const LONG_ROWS: &[Place] = &[(0, 5000, 4, 8), (4, 5000, 4, 8), (32, 5000, 4, 8)];

/// Which read fails, which ask is then at fault, of those of a list and of the same once more, and how many reads are made in all. A
/// read that failed isn't made again: the ask behind it reads its own rows ahead, and those before them are read when they are
/// asked for once more.
type Failure = (u64, Option<usize>, Option<usize>, u64);

const FAILURES_OF_SHORT: &[Failure] = &[
    (0, None, None, 6),
    (1, Some(0), None, 8),
    (2, Some(2), None, 6),
    (3, Some(3), None, 6),
    (4, Some(4), None, 8),
    (5, None, Some(2), 6),
    (6, None, Some(3), 6),
    (7, None, None, 6),
];

/// Where one of the first eight reads fails, the second ask reads eight rows that the third finds, and the first asked again reads
/// eight more. Where one of the next eight does, it is the third that reads eight more when it is asked again.
const FAILURES_OF_LONG: &[Failure] = &[
    (0, None, None, 16),
    (1, Some(0), None, 17),
    (2, Some(0), None, 18),
    (7, Some(0), None, 23),
    (8, Some(0), None, 24),
    (9, Some(2), None, 17),
    (10, Some(2), None, 18),
    (16, Some(2), None, 24),
    (17, None, None, 16),
];

static LISTS: [(&[Place], &[Failure]); 2] = [
    (SHORT_ROWS, FAILURES_OF_SHORT),
    (LONG_ROWS, FAILURES_OF_LONG),
];

/// Whether one ask of a source alone is at fault, by a cause.
fn is_alone_at_fault<R: Opens + Wait>(
    rt: &R,
    source: &PathSource<R>,
    asked: &[Place],
    faulty: Option<usize>,
    cause: u8,
) -> bool {
    for (number, place) in asked.iter().enumerate() {
        let to_come = if faulty == Some(number) {
            Outcome::Fault(cause)
        } else {
            Outcome::Right
        };
        if !is_answered(rt, source, Ask::Runs(7, *place, to_come), 0) {
            return false;
        }
    }
    true
}

/// Reads, which of them are at fault, the first time and the second, by which cause, and how many reads are made.
#[derive(Clone, Copy)]
struct Faulty<'a> {
    asked: &'a [Place],
    first: Option<usize>,
    second: Option<usize>,
    cause: u8,
    reads: u64,
}

/// Whether those asks of the file "1" are at fault, and no other.
fn are_alone_at_fault<R: Opens + Wait>(
    rt: &R,
    alloc: Global,
    faulty: Faulty<'_>,
) -> Result<bool, Fail> {
    let files = open_files(alloc, 1)?;
    let source = open(rt, alloc, &files, "1")??;
    let first = is_alone_at_fault(rt, &source, faulty.asked, faulty.first, faulty.cause);
    let second = is_alone_at_fault(rt, &source, faulty.asked, faulty.second, faulty.cause);
    Ok(first && second)
}

/// Reads a file in memory so of which one read fails, and whether so many reads are made.
fn one_fails<W: Wait, C: Contents>(
    host: &W,
    alloc: Global,
    bytes: Vec<u8>,
    failing: Failing,
    faulty: Faulty<'_>,
) -> Result<bool, Fail> {
    let mut held = Vec::new(alloc);
    held.push(MemFile::<C>::new(String::from_str(alloc, "1")?, bytes))?;
    let files = MemFiles::new(host, held, failing);
    Ok(are_alone_at_fault(&files, alloc, faulty)? && is_same(&files.reads(), &faulty.reads))
}

/// Reads a file of numbered bytes so.
fn is_right<R: Wait>(
    rt: &R,
    alloc: Global,
    failing: Failing,
    faulty: Faulty<'_>,
) -> Result<bool, Fail> {
    let bytes = bytes_of(alloc, Bytes::Numbered(7, 40_000))?;
    one_fails::<_, Brand>(rt, alloc, bytes, failing, faulty)
}

/// Whether it is so where the read of a failure fails by either cause.
fn fails_alone<R: Wait>(
    rt: &R,
    alloc: Global,
    asked: &[Place],
    failure: Failure,
) -> Result<bool, Fail> {
    let (read, first, second, reads) = failure;
    for (failing, cause) in [
        (Failing::Ends(read), ReadFault::ENDED),
        (Failing::Fails(read), ReadFault::FAILED),
    ] {
        let faulty = Faulty {
            asked,
            first,
            second,
            cause,
            reads,
        };
        if !is_right(rt, alloc, failing, faulty)? {
            return Ok(false);
        }
    }
    Ok(true)
}

#[test]
fn each_read_fails_in_turn(rt: HostRuntime) -> Result<(), Fail> {
    for (asked, failures) in LISTS.iter() {
        for failure in failures.iter() {
            assert!(rt;
                fails_alone(&rt, rt.alloc(), *asked, *failure)?,
                "read {}",
                failure.0
            );
        }
    }
    Ok(())
}
