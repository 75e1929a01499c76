//! Runs of files that are read ahead: the bytes are those of the file, in whatever order they are asked for.

use crate::file::steps::{
    Ask, Bytes, Change, Outcome, Place, Shared, Step, bytes_of, fit, is_answered, open, open_files, run, write_over,
};
use crate::fixtures::is_same;
use iiif_open_files::{Opening, Opens, RowCache, WideRows, wider};
use iiif_source::{OpenFile, ReadFault, Runs, Source};
use std::alloc::Global;
use std::fs;
use std::fs::File;
use std::sync::Arc;
use std::test::Fail;

/// Twenty rows of a picture of 5,000 by 22 bytes: from left to right, from right to left, and runs that lie across those before.
const ORDERS: &[Step] = &[
    Step::Open("rows_orders", Bytes::Numbered(0, 110_000)),
    Step::Ask(0, Ask::Runs(0, (0, 5000, 4, 20), Outcome::Right)),
    Step::Ask(0, Ask::Runs(0, (4, 5000, 4, 20), Outcome::Right)),
    Step::Ask(0, Ask::Runs(0, (28, 5000, 4, 20), Outcome::Right)),
    Step::Ask(0, Ask::Runs(0, (32, 5000, 4, 20), Outcome::Right)),
    Step::Ask(0, Ask::Runs(0, (4996, 5000, 4, 20), Outcome::Right)),
    Step::Ask(0, Ask::Runs(0, (4992, 5000, 4, 20), Outcome::Right)),
    Step::Ask(0, Ask::Runs(0, (4988, 5000, 4, 20), Outcome::Right)),
    Step::Ask(0, Ask::Runs(0, (30, 5000, 4, 20), Outcome::Right)),
    Step::Ask(0, Ask::Runs(0, (31, 5000, 1, 20), Outcome::Right)),
    Step::Ask(0, Ask::Runs(0, (1, 5000, 31, 20), Outcome::Right)),
    Step::Ask(0, Ask::Runs(0, (1, 5000, 32, 20), Outcome::Right)),
    Step::Ask(0, Ask::Runs(0, (4, 5000, 4, 19), Outcome::Right)),
    Step::Ask(0, Ask::Runs(0, (5004, 5000, 4, 20), Outcome::Right)),
    Step::Ask(0, Ask::Runs(0, (4, 10_000, 4, 8), Outcome::Right)),
    Step::Ask(0, Ask::Runs(0, (4, 5000, 4, 20), Outcome::Right)),
    Step::Change("rows_orders", Change::Removed),
];

/// Whole rows, the last rows of the file, one run, runs that lie together, and runs without a byte.
const EDGES: &[Step] = &[
    Step::Open("rows_edges", Bytes::Numbered(0, 4000)),
    Step::Ask(0, Ask::Runs(0, (0, 100, 10, 8), Outcome::Right)),
    Step::Ask(0, Ask::Runs(0, (90, 100, 10, 8), Outcome::Right)),
    Step::Ask(0, Ask::Runs(0, (45, 100, 55, 8), Outcome::Right)),
    Step::Ask(0, Ask::Runs(0, (3200, 100, 10, 8), Outcome::Right)),
    Step::Ask(0, Ask::Runs(0, (3290, 100, 10, 8), Outcome::Right)),
    Step::Ask(0, Ask::Runs(0, (3301, 100, 10, 7), Outcome::Right)),
    Step::Ask(0, Ask::Runs(0, (3390, 100, 4, 7), Outcome::Right)),
    Step::Ask(0, Ask::Runs(0, (3396, 100, 4, 7), Outcome::Right)),
    Step::Ask(0, Ask::Runs(0, (3397, 100, 4, 7), Outcome::Outside)),
    Step::Ask(0, Ask::Runs(0, (5, 100, 4, 1), Outcome::Right)),
    Step::Ask(0, Ask::Runs(0, (0, 100, 100, 8), Outcome::Right)),
    Step::Ask(0, Ask::Runs(0, (0, 100, 0, 8), Outcome::Right)),
    Step::Ask(0, Ask::Runs(0, (0, 4, 1, 200), Outcome::Right)),
    Step::Change("rows_edges", Change::Removed),
];

/// Two files of equal rows.
const TWO: &[Step] = &[
    Step::Open("rows_one", Bytes::Numbered(0, 4000)),
    Step::Open("rows_two", Bytes::Numbered(255, 4000)),
    Step::Ask(0, Ask::Runs(0, (0, 100, 4, 8), Outcome::Right)),
    Step::Ask(1, Ask::Runs(255, (4, 100, 4, 8), Outcome::Right)),
    Step::Ask(1, Ask::Runs(0, (4, 100, 4, 8), Outcome::Wrong)),
    Step::Ask(0, Ask::Runs(0, (8, 100, 4, 8), Outcome::Right)),
    Step::Ask(1, Ask::Runs(255, (12, 100, 4, 8), Outcome::Right)),
    Step::Change("rows_one", Change::Removed),
    Step::Change("rows_two", Change::Removed),
];

/// A file that is cut while it is open has ended, though its rows were read ahead; as long again it isn't what it was.
const CUT: &[Step] = &[
    Step::Open("rows_cut", Bytes::Numbered(7, 4000)),
    Step::Ask(0, Ask::Runs(7, (0, 100, 4, 8), Outcome::Right)),
    Step::Ask(0, Ask::Runs(7, (0, 100, 4, 20), Outcome::Right)),
    Step::Change("rows_cut", Change::Resized(650)),
    Step::Ask(
        0,
        Ask::Runs(7, (4, 100, 4, 8), Outcome::Fault(ReadFault::ENDED)),
    ),
    Step::Change("rows_cut", Change::Resized(4000)),
    Step::Ask(
        0,
        Ask::Runs(7, (4, 100, 4, 8), Outcome::Fault(ReadFault::FAILED)),
    ),
    Step::Ask(
        0,
        Ask::Runs(7, (4, 100, 4, 20), Outcome::Fault(ReadFault::FAILED)),
    ),
    Step::Change("rows_cut", Change::Removed),
];

/// A file that is written over gives no rows, whether they were read ahead or not; nor does another that takes its name.
const WRITTEN_OVER: &[Step] = &[
    Step::Open("rows_over", Bytes::Numbered(1, 4000)),
    Step::Ask(0, Ask::Runs(1, (0, 100, 4, 8), Outcome::Right)),
    Step::Ask(0, Ask::Runs(1, (0, 100, 4, 20), Outcome::Right)),
    Step::Change("rows_over", Change::Written(Bytes::Numbered(3, 4000))),
    Step::Ask(
        0,
        Ask::Runs(1, (4, 100, 4, 8), Outcome::Fault(ReadFault::FAILED)),
    ),
    Step::Ask(
        0,
        Ask::Runs(1, (1200, 100, 4, 20), Outcome::Fault(ReadFault::FAILED)),
    ),
    Step::Open("rows_beside", Bytes::Numbered(2, 4000)),
    Step::Ask(1, Ask::Runs(2, (4, 100, 4, 8), Outcome::Right)),
    Step::Ask(
        0,
        Ask::Runs(1, (4, 100, 4, 8), Outcome::Fault(ReadFault::FAILED)),
    ),
    Step::Change("rows_over", Change::Replaced(&[1, 2, 3])),
    Step::Ask(
        0,
        Ask::Runs(1, (4, 100, 4, 8), Outcome::Fault(ReadFault::FAILED)),
    ),
    Step::Change("rows_over", Change::Removed),
    Step::Change("rows_beside", Change::Removed),
];

/// Columns of 20 groups of rows, more than are kept.
const GROUPS: &[(usize, Ask)] = &[
    (0, Ask::Runs(5, (0, 5000, 4, 20), Outcome::Right)),
    (0, Ask::Runs(5, (5000, 5000, 4, 20), Outcome::Right)),
    (0, Ask::Runs(5, (10000, 5000, 4, 20), Outcome::Right)),
    (0, Ask::Runs(5, (15000, 5000, 4, 20), Outcome::Right)),
    (0, Ask::Runs(5, (20000, 5000, 4, 20), Outcome::Right)),
    (0, Ask::Runs(5, (25000, 5000, 4, 20), Outcome::Right)),
    (0, Ask::Runs(5, (30000, 5000, 4, 20), Outcome::Right)),
    (0, Ask::Runs(5, (35000, 5000, 4, 20), Outcome::Right)),
    (0, Ask::Runs(5, (40000, 5000, 4, 20), Outcome::Right)),
    (0, Ask::Runs(5, (45000, 5000, 4, 20), Outcome::Right)),
    (0, Ask::Runs(5, (50000, 5000, 4, 20), Outcome::Right)),
    (0, Ask::Runs(5, (55000, 5000, 4, 20), Outcome::Right)),
    (0, Ask::Runs(5, (60000, 5000, 4, 20), Outcome::Right)),
    (0, Ask::Runs(5, (65000, 5000, 4, 20), Outcome::Right)),
    (0, Ask::Runs(5, (70000, 5000, 4, 20), Outcome::Right)),
    (0, Ask::Runs(5, (75000, 5000, 4, 20), Outcome::Right)),
    (0, Ask::Runs(5, (80000, 5000, 4, 20), Outcome::Right)),
    (0, Ask::Runs(5, (85000, 5000, 4, 20), Outcome::Right)),
    (0, Ask::Runs(5, (90000, 5000, 4, 20), Outcome::Right)),
    (0, Ask::Runs(5, (95000, 5000, 4, 20), Outcome::Right)),
];

/// Two threads that read them.
pub(crate) const SHARED: Shared = Shared {
    most: 1,
    before: &[Step::Open("rows_shared", Bytes::Numbered(5, 200_000))],
    asks: GROUPS,
    turns: (50, 70),
    behind: &[Step::Change("rows_shared", Change::Removed)],
};

/// How many files are kept open, and what is done.
static LISTS: [(usize, &[(u32, &[Step])]); 5] = [
    (1, &[(1, ORDERS)]),
    (1, &[(1, EDGES)]),
    (2, &[(1, TWO)]),
    (1, &[(1, CUT)]),
    (1, &[(1, WRITTEN_OVER)]),
];

#[test]
fn runs_are_those_of_the_file(rt: HostRuntime) -> Result<(), Fail> {
    for (most, lists) in LISTS.iter() {
        run(&rt, *most, *lists)?;
    }
    Ok(())
}

/// A file that was written over, and has its bytes and the time of its last change again, gives them: rows that were read ahead of it
/// meanwhile aren't used.
#[test]
fn rows_of_a_file_that_was_changed_are_forgotten(rt: HostRuntime) -> Result<(), Fail> {
    let (path, was) = ("rows_put_back", Bytes::Numbered(1, 4000));
    let files = open_files(rt.alloc(), 1)?;
    fs::write(&rt, path, bytes_of(rt.alloc(), was)?.as_slice())?;
    let changed = fs::metadata(&rt, path)?.modified()?;
    let source = open(&rt, rt.alloc(), &files, path)??;
    write_over(&rt, path, Bytes::Numbered(3, 4000))?;
    let refused = Outcome::Fault(ReadFault::FAILED);
    assert!(rt; is_answered(&rt, &source, Ask::Runs(1, (0, 100, 4, 8), refused), 0));
    write_over(&rt, path, was)?;
    File::options()
        .write(true)
        .open(&rt, path)?
        .set_modified(changed)?;
    assert!(rt; is_answered(&rt, &source, Ask::Runs(1, (4, 100, 4, 8), Outcome::Right), 0));
    fs::remove_file(&rt, path)?;
    Ok(())
}

/// A read whose rows are read ahead, where memory allows it.
const GROWTH: &[Step] = &[
    Step::Open("rows_growth", Bytes::Numbered(9, 4000)),
    Step::Ask(0, Ask::Runs(9, (0, 100, 4, 8), Outcome::Right)),
    Step::Ask(0, Ask::Runs(9, (4, 100, 4, 8), Outcome::Right)),
    Step::Change("rows_growth", Change::Removed),
];

static GROWTHS: [(u32, &[Step]); 1] = [(1, GROWTH)];

#[test]
fn runs_are_read_after_a_refused_growth(rt: HostRuntime) -> Result<(), Fail> {
    run(&rt, 1, &GROWTHS)
}

/// Runs, the length of their source, and how long the wider ones are: eight times as long; less where a row or the source ends, or
/// 1 MiB, of up to 16 rows 64 KiB; whole rows where these are short; none where there is no room, for one run, for runs that lie
/// together or have no byte.
static WIDER: [(Place, u64, Option<usize>); 18] = [
    ((0, 10_000, 256, 256), 100_000_000, Some(2048)),
    ((9_984, 10_000, 16, 256), 100_000_000, Some(128)),
    ((0, 10_000, 1024, 256), 100_000_000, Some(4096)),
    ((0, 10_000, 256, 17), 100_000_000, Some(2048)),
    ((0, 10_000, 1024, 16), 100_000_000, Some(4096)),
    ((0, 10_000, 1024, 15), 100_000_000, Some(4096)),
    ((0, 10_000, 1024, 8), 100_000_000, Some(8192)),
    ((0, 2_000, 256, 256), 512_000, Some(2000)),
    ((256, 2_000, 256, 256), 512_000, Some(1536)),
    ((1_744, 2_000, 256, 256), 512_000, None),
    ((0, 256, 16, 256), 65_536, Some(256)),
    ((0, 256, 1, 256), 65_536, Some(256)),
    ((0, 4_096, 1, 20), 100_000_000, Some(4096)),
    ((0, 4_097, 1, 20), 100_000_000, Some(8)),
    ((0, 10_000, 1024, 1024), 100_000_000, None),
    ((0, 10_000, 256, 1), 100_000_000, None),
    ((0, 256, 256, 256), 65_536, None),
    ((0, 256, 0, 256), 65_536, None),
];

/// How long the wider runs are, where there are any.
fn width_of(place: Place, source: u64) -> Option<usize> {
    let (at, stride, len, count) = place;
    let runs = Runs {
        at,
        stride,
        len,
        count,
    };
    if !fit(source, runs, usize::MAX) {
        return None;
    }
    Some(wider(runs, source)?.len)
}

#[test]
fn rows_are_wider_than_runs(rt: HostRuntime) {
    for (case, (place, source, width)) in WIDER.iter().enumerate() {
        assert!(rt; is_same(&width_of(*place, *source), width), "case {case}");
    }
}

const SMALL: Runs = Runs {
    at: 0,
    stride: 4,
    len: 2,
    count: 2,
};

/// An opening of a file, with a number.
fn opening<R: Opens>(rt: &R, alloc: Global, path: &str, number: u64) -> Result<Opening<R>, Fail> {
    let path = Arc::new(alloc, String::from_str(alloc, path)?)?;
    let file = OpenFile::open(rt, path)?;
    Ok(Opening { number, file })
}

/// Small rows of a file, read by the opening of a number.
fn small_rows<R: Opens>(
    rt: &R,
    alloc: Global,
    path: &str,
    number: u64,
) -> Result<Arc<WideRows<R>>, Fail> {
    let opening = opening(rt, alloc, path, number)?;
    let Ok(Some(rows)) = WideRows::read(rt, alloc, &opening, 8, SMALL) else {
        return Err(Fail::from("no rows"));
    };
    if Source::<R>::len(&rows.bytes) > 65_536 {
        return Err(Fail::from("more rows than a cache has room for"));
    }
    Ok(Arc::new(alloc, rows)?)
}

/// A call of a cache, and what is to come of it.
#[derive(Clone, Copy)]
enum CacheCall {
    /// Rows of the openings from a number to another are kept, one after another.
    Keep(u64, u64),
    /// The cache has the rows of the opening of a number, or not.
    Has(u64, bool),
    /// It has none of another file, though the opening has this number.
    HasNoOther(u64),
    Forget(u64),
    /// It has so many rows.
    Len(usize),
}

static CACHE_CALLS: [CacheCall; 13] = [
    CacheCall::Keep(0, 16),
    CacheCall::HasNoOther(0),
    CacheCall::Len(16),
    CacheCall::Has(0, true),
    CacheCall::Keep(16, 17),
    CacheCall::Has(0, true),
    CacheCall::Has(1, false),
    CacheCall::Has(2, true),
    CacheCall::Has(16, true),
    CacheCall::Forget(0),
    CacheCall::Len(15),
    CacheCall::Has(0, false),
    CacheCall::Has(2, true),
];

/// Whether a call of a cache, of rows of a file, comes to what it is to.
fn answers_as<R: Opens>(
    rt: &R,
    alloc: Global,
    path: &str,
    cache: &mut RowCache<R, 16, 65_536>,
    call: CacheCall,
) -> Result<bool, Fail> {
    match call {
        CacheCall::Keep(from, to) => {
            for number in from..to {
                cache.keep(small_rows(rt, alloc, path, number)?);
            }
        }
        CacheCall::Has(number, kept) => return Ok(is_same(
            &cache.find(path, number, SMALL).is_some(),
            &kept,
        )),
        CacheCall::HasNoOther(number) => return Ok(cache.find("rows_other", number, SMALL).is_none()),
        CacheCall::Forget(number) => cache.forget(number),
        CacheCall::Len(len) => return Ok(is_same(&cache.len(), &len)),
    }
    Ok(true)
}

#[test]
fn rows_that_were_used_longest_ago_go_first(rt: HostRuntime) -> Result<(), Fail> {
    let path = "rows_small";
    fs::write(&rt, path, &[7; 8])?;
    let mut cache: RowCache<HostRuntime, 16, 65_536> = RowCache::new(rt.alloc());
    for (place, call) in CACHE_CALLS.iter().enumerate() {
        assert!(rt;
            answers_as(&rt, rt.alloc(), path, &mut cache, *call)?,
            "call {place}"
        );
    }
    Ok(fs::remove_file(&rt, path)?)
}
