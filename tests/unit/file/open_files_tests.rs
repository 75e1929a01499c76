//! Sources of files, with room for fewer open files than there are.

use crate::file::rows_tests;
use crate::file::steps::{
    Ask, Bytes, Change, Outcome, Shared, Step, both_answer, open_files, play, run,
};
use crate::fixtures::is_same;
use iiif_open_files::{FailureReason, Known, OpenFiles, PathSource, ReadFailures};
use iiif_source::{ReadFault, Source};
use std::fs;
use std::num::NonZeroUsize;
use std::sync::Arc;
use std::test::Fail;

const FIVE: &[Step] = &[
    Step::Open("open_files_again_0", Bytes::These(&[0, 10, 20])),
    Step::Open("open_files_again_1", Bytes::These(&[1, 11, 21])),
    Step::Open("open_files_again_2", Bytes::These(&[2, 12, 22])),
    Step::Open("open_files_again_3", Bytes::These(&[3, 13, 23])),
    Step::Open("open_files_again_4", Bytes::These(&[4, 14, 24])),
    Step::Kept(2),
];

const FIVE_ARE_READ: &[Step] = &[
    Step::Ask(0, Ask::Len(3)),
    Step::Ask(0, Ask::Two(1, Ok([10, 20]))),
    Step::Ask(0, Ask::Two(0, Ok([0, 10]))),
    Step::Kept(2),
    Step::Ask(1, Ask::Len(3)),
    Step::Ask(1, Ask::Two(1, Ok([11, 21]))),
    Step::Ask(1, Ask::Two(0, Ok([1, 11]))),
    Step::Kept(2),
    Step::Ask(2, Ask::Len(3)),
    Step::Ask(2, Ask::Two(1, Ok([12, 22]))),
    Step::Ask(2, Ask::Two(0, Ok([2, 12]))),
    Step::Kept(2),
    Step::Ask(3, Ask::Len(3)),
    Step::Ask(3, Ask::Two(1, Ok([13, 23]))),
    Step::Ask(3, Ask::Two(0, Ok([3, 13]))),
    Step::Kept(2),
    Step::Ask(4, Ask::Len(3)),
    Step::Ask(4, Ask::Two(1, Ok([14, 24]))),
    Step::Ask(4, Ask::Two(0, Ok([4, 14]))),
    Step::Kept(2),
];

const FIVE_ARE_REMOVED: &[Step] = &[
    Step::Change("open_files_again_0", Change::Removed),
    Step::Change("open_files_again_1", Change::Removed),
    Step::Change("open_files_again_2", Change::Removed),
    Step::Change("open_files_again_3", Change::Removed),
    Step::Change("open_files_again_4", Change::Removed),
];

const AGAIN: &[(u32, &[Step])] = &[(1, FIVE), (3, FIVE_ARE_READ), (1, FIVE_ARE_REMOVED)];

/// The files of sources whose reads fail, of which the last stays open, and why they do.
static FAILING: [(&str, FailureReason); 3] = [
    ("open_files_failing_gone", FailureReason::Missing),
    ("open_files_failing_cut", FailureReason::Shorter),
    ("open_files_failing_written", FailureReason::Changed),
];

#[test]
fn failed_reads_are_noted_with_file_place_and_reason(rt: HostRuntime) -> Result<(), Fail> {
    let alloc = rt.alloc();
    let failures = Arc::new(alloc, ReadFailures::new(alloc))?;
    let most = NonZeroUsize::new(1).ok_or("no room")?;
    let files: OpenFiles<HostRuntime> = OpenFiles::noting(alloc, most, Some(failures.clone()?))?;
    let files = Arc::new(alloc, files)?;
    let mut sources = Vec::new(alloc);
    for (path, _) in &FAILING {
        fs::write(&rt, *path, [1u8, 2, 3].as_slice())?;
        let path = String::from_str(alloc, *path)?;
        sources.push(PathSource::open(&rt, files.clone()?, path)?)?;
    }
    fs::remove_file(&rt, FAILING[0].0)?;
    fs::write(&rt, FAILING[1].0, [1u8].as_slice())?;
    fs::write(&rt, FAILING[2].0, [4u8, 5, 6, 7].as_slice())?;
    let mut two = [0u8; 2];
    for source in &sources {
        assert!(rt; source.read_at(&rt, 1, &mut two).is_err());
    }
    for (path, reason) in &FAILING {
        let failure = failures.take(&rt).ok_or("none waits")?;
        assert!(rt;
            is_same(&failure.path.as_str(), path)
                && is_same(&failure.place, &1)
                && is_same(&failure.reason, reason)
        );
    }
    assert!(rt; failures.take(&rt).is_none() && is_same(&failures.count(), &3));
    Ok(())
}

const NOWHERE: &[Step] = &[Step::Nowhere("open_files_nowhere"), Step::Kept(0)];

/// Files that are gone, shorter, longer, another, and made again after they were opened, and one that is the same. The node of the one
/// that was removed may be that of the one that is made in its place.
const CHANGED: &[Step] = &[
    Step::Open("open_files_gone", Bytes::These(&[1, 2, 3])),
    Step::Open("open_files_shorter", Bytes::These(&[1, 2, 3])),
    Step::Open("open_files_longer", Bytes::These(&[1, 2, 3])),
    Step::Open("open_files_another", Bytes::These(&[1, 2, 3])),
    Step::Open("open_files_made_again", Bytes::These(&[1, 2, 3])),
    Step::Open("open_files_same", Bytes::These(&[7, 8, 9])),
    Step::Change("open_files_gone", Change::Removed),
    Step::Change("open_files_shorter", Change::Resized(2)),
    Step::Change("open_files_longer", Change::Resized(4)),
    Step::Change("open_files_another", Change::Replaced(&[1, 2, 3])),
    Step::Change("open_files_made_again", Change::MadeAgain(&[4, 5, 6])),
];

/// Reads of them, and then of the one that is the same.
const CHANGED_ARE_READ: &[Step] = &[
    Step::Ask(0, Ask::Two(1, Err(ReadFault::FAILED))),
    Step::Ask(0, Ask::Len(3)),
    Step::Ask(5, Ask::Two(1, Ok([8, 9]))),
    Step::Ask(1, Ask::Two(1, Err(ReadFault::ENDED))),
    Step::Ask(1, Ask::Len(3)),
    Step::Ask(5, Ask::Two(1, Ok([8, 9]))),
    Step::Ask(2, Ask::Two(1, Err(ReadFault::FAILED))),
    Step::Ask(2, Ask::Len(3)),
    Step::Ask(5, Ask::Two(1, Ok([8, 9]))),
    Step::Ask(3, Ask::Two(1, Err(ReadFault::FAILED))),
    Step::Ask(3, Ask::Len(3)),
    Step::Ask(5, Ask::Two(1, Ok([8, 9]))),
    Step::Ask(4, Ask::Two(1, Err(ReadFault::FAILED))),
    Step::Ask(4, Ask::Len(3)),
    Step::Ask(5, Ask::Two(1, Ok([8, 9]))),
];

const CHANGED_ARE_REMOVED: &[Step] = &[
    Step::Change("open_files_shorter", Change::Removed),
    Step::Change("open_files_longer", Change::Removed),
    Step::Change("open_files_another", Change::Removed),
    Step::Change("open_files_made_again", Change::Removed),
    Step::Change("open_files_same", Change::Removed),
];

const FAULTS: &[(u32, &[Step])] = &[
    (1, CHANGED),
    (1, CHANGED_ARE_READ),
    (1, CHANGED_ARE_REMOVED),
];

const KEPT: &[Step] = &[
    Step::Open("open_files_kept", Bytes::These(&[1, 2, 3])),
    Step::Change("open_files_kept", Change::Removed),
    Step::Ask(0, Ask::Two(0, Ok([1, 2]))),
    Step::Open("open_files_other", Bytes::These(&[4, 5])),
    Step::Ask(1, Ask::Two(0, Ok([4, 5]))),
    Step::Ask(0, Ask::Two(0, Err(1))),
    Step::Change("open_files_other", Change::Removed),
];

/// A file that is cut while it is open gives none of the bytes that it still has.
const CUT: &[Step] = &[
    Step::Open("open_files_cut", Bytes::These(&[1, 2, 3])),
    Step::Change("open_files_cut", Change::Resized(2)),
    Step::Ask(0, Ask::Two(1, Err(ReadFault::ENDED))),
    Step::Ask(0, Ask::Two(0, Err(ReadFault::ENDED))),
    Step::Change("open_files_cut", Change::Removed),
];

/// Files that are written over in their places, one while it is open and one while it isn't, and one that isn't.
const WRITTEN_OVER: &[Step] = &[
    Step::Open("open_files_over_closed", Bytes::These(&[1, 2, 3])),
    Step::Open("open_files_over_open", Bytes::These(&[4, 5, 6])),
    Step::Ask(1, Ask::Two(0, Ok([4, 5]))),
    Step::Change(
        "open_files_over_closed",
        Change::Written(Bytes::These(&[7, 8, 9])),
    ),
    Step::Change(
        "open_files_over_open",
        Change::Written(Bytes::These(&[4, 5, 6])),
    ),
    Step::Ask(1, Ask::Two(0, Err(ReadFault::FAILED))),
    Step::Ask(0, Ask::Two(1, Err(ReadFault::FAILED))),
    Step::Open("open_files_over_anew", Bytes::These(&[1, 2, 3])),
    Step::Ask(2, Ask::Two(1, Ok([2, 3]))),
    Step::Ask(1, Ask::Two(1, Err(ReadFault::FAILED))),
    Step::Change("open_files_over_closed", Change::Removed),
    Step::Change("open_files_over_open", Change::Removed),
    Step::Change("open_files_over_anew", Change::Removed),
];

/// Two files of one length, asked in turn where one of them alone is open.
const BY_NAME: &[Step] = &[
    Step::Open("open_files_name_3", Bytes::Numbered(3, 4000)),
    Step::Open("open_files_name_4", Bytes::Numbered(4, 4000)),
    Step::Ask(0, Ask::Two(1, Ok([2, 1]))),
    Step::Ask(1, Ask::Two(1, Ok([5, 6]))),
    Step::Ask(0, Ask::Runs(3, (0, 100, 4, 8), Outcome::Right)),
    Step::Ask(1, Ask::Runs(4, (0, 100, 4, 8), Outcome::Right)),
    Step::Ask(0, Ask::Runs(3, (4, 100, 4, 8), Outcome::Right)),
    Step::Ask(1, Ask::Runs(4, (4, 100, 4, 8), Outcome::Right)),
    Step::Ask(1, Ask::Two(1, Ok([5, 6]))),
    Step::Ask(0, Ask::Two(1, Ok([2, 1]))),
    Step::Kept(1),
    Step::Change("open_files_name_3", Change::Removed),
    Step::Change("open_files_name_4", Change::Removed),
];

/// A file whose name another takes while it is open: as long as it is, it is read; then what has its name isn't it.
const REPLACED: &[Step] = &[
    Step::Open("open_files_replaced", Bytes::These(&[1, 2, 3])),
    Step::Change("open_files_replaced", Change::Replaced(&[7, 8, 9])),
    Step::Ask(0, Ask::Two(1, Ok([2, 3]))),
    Step::Open("open_files_behind", Bytes::These(&[4, 5])),
    Step::Ask(0, Ask::Two(1, Err(ReadFault::FAILED))),
    Step::Ask(1, Ask::Two(0, Ok([4, 5]))),
    Step::Change("open_files_replaced", Change::Removed),
    Step::Change("open_files_behind", Change::Removed),
];

/// A file of no bytes is a source of none.
const EMPTY: &[Step] = &[
    Step::Open("open_files_empty", Bytes::These(&[])),
    Step::Ask(0, Ask::Len(0)),
    Step::Change("open_files_empty", Change::Removed),
];

const TWO: &[Step] = &[
    Step::Open("open_files_one", Bytes::These(&[1, 2, 3])),
    Step::Open("open_files_two", Bytes::These(&[4, 5])),
];

const TWO_ARE_READ: &[Step] = &[
    Step::Ask(0, Ask::Two(1, Ok([2, 3]))),
    Step::Ask(1, Ask::Two(0, Ok([4, 5]))),
    Step::KeptAtMost(1),
];

const TWO_ARE_REMOVED: &[Step] = &[
    Step::Change("open_files_one", Change::Removed),
    Step::Change("open_files_two", Change::Removed),
];

static GROWTH: [(u32, &[Step]); 3] = [(1, TWO), (3, TWO_ARE_READ), (1, TWO_ARE_REMOVED)];

/// Eight files, with their numbers in the middle.
const EIGHT: &[Step] = &[
    Step::Open("open_files_shared_0", Bytes::These(&[0, 0, 100])),
    Step::Open("open_files_shared_1", Bytes::These(&[0, 1, 100])),
    Step::Open("open_files_shared_2", Bytes::These(&[0, 2, 100])),
    Step::Open("open_files_shared_3", Bytes::These(&[0, 3, 100])),
    Step::Open("open_files_shared_4", Bytes::These(&[0, 4, 100])),
    Step::Open("open_files_shared_5", Bytes::These(&[0, 5, 100])),
    Step::Open("open_files_shared_6", Bytes::These(&[0, 6, 100])),
    Step::Open("open_files_shared_7", Bytes::These(&[0, 7, 100])),
];

/// The last two bytes of each.
const EIGHT_ARE_ASKED: &[(usize, Ask)] = &[
    (0, Ask::Two(1, Ok([0, 100]))),
    (1, Ask::Two(1, Ok([1, 100]))),
    (2, Ask::Two(1, Ok([2, 100]))),
    (3, Ask::Two(1, Ok([3, 100]))),
    (4, Ask::Two(1, Ok([4, 100]))),
    (5, Ask::Two(1, Ok([5, 100]))),
    (6, Ask::Two(1, Ok([6, 100]))),
    (7, Ask::Two(1, Ok([7, 100]))),
];

const EIGHT_ARE_REMOVED: &[Step] = &[
    Step::Kept(3),
    Step::Change("open_files_shared_0", Change::Removed),
    Step::Change("open_files_shared_1", Change::Removed),
    Step::Change("open_files_shared_2", Change::Removed),
    Step::Change("open_files_shared_3", Change::Removed),
    Step::Change("open_files_shared_4", Change::Removed),
    Step::Change("open_files_shared_5", Change::Removed),
    Step::Change("open_files_shared_6", Change::Removed),
    Step::Change("open_files_shared_7", Change::Removed),
];

const SHARED: Shared = Shared {
    most: 3,
    before: EIGHT,
    asks: EIGHT_ARE_ASKED,
    turns: (50, 50),
    behind: EIGHT_ARE_REMOVED,
};

/// Files that threads share, here and of runs.
static BOTH: [Shared; 2] = [SHARED, rows_tests::SHARED];

#[test]
fn threads_share_the_open_files(rt: HostRuntime) -> Result<(), Fail> {
    for shared in BOTH.iter().copied() {
        let files = open_files(rt.alloc(), shared.most)?;
        let mut sources = Vec::new(rt.alloc());
        play(&rt, &files, &mut sources, shared.before)?;
        assert!(rt; both_answer(&rt, &sources, shared));
        play(&rt, &files, &mut sources, shared.behind)?;
    }
    Ok(())
}

/// How many files are kept open, and what is done.
static LISTS: [(usize, &[(u32, &[Step])]); 9] = [
    (1, &[(1, BY_NAME)]),
    (1, &[(1, REPLACED)]),
    (1, &[(1, EMPTY)]),
    (2, AGAIN),
    (1, &[(1, NOWHERE)]),
    (1, FAULTS),
    (1, &[(1, KEPT)]),
    (1, &[(1, CUT)]),
    (1, &[(1, WRITTEN_OVER)]),
];

#[test]
fn sources_are_their_files(rt: HostRuntime) -> Result<(), Fail> {
    for (most, lists) in LISTS.iter() {
        run(&rt, *most, *lists)?;
    }
    Ok(())
}

#[test]
fn file_is_read_after_a_refused_growth(rt: HostRuntime) -> Result<(), Fail> {
    run(&rt, 1, &GROWTH)
}

/// The metadata found of a file that was known as [1, 2, 4, 6, 3] (the device, the node, the moments when it was made and when its bytes
/// were last changed, the length), and the cause of the fault that comes of it.
static KNOWN: [([u64; 5], Option<u8>); 11] = [
    ([1, 2, 4, 6, 3], None),
    ([1, 2, 4, 6, 2], Some(2)),
    ([1, 2, 4, 6, 4], Some(1)),
    ([1, 2, 4, 7, 3], Some(1)),
    ([1, 2, 4, 5, 3], Some(1)),
    ([1, 2, 4, 7, 2], Some(2)),
    ([2, 2, 4, 6, 3], Some(1)),
    ([1, 3, 4, 6, 3], Some(1)),
    ([1, 3, 4, 6, 2], Some(1)),
    ([1, 2, 5, 6, 3], Some(1)),
    ([1, 2, 5, 6, 2], Some(1)),
];

#[test]
fn change_of_a_file_has_its_cause(rt: HostRuntime) {
    for (case, ([device, node, born, changed, len], cause)) in KNOWN.iter().enumerate() {
        let was = Known {
            device: 1,
            node: 2,
            born: 4,
            changed: 6,
            len: 3,
        };
        let now = Known {
            device: *device,
            node: *node,
            born: *born,
            changed: *changed,
            len: *len,
        };
        assert!(rt; is_same(&was.change(&now), cause), "case {case}");
    }
}

/// A moment in 2001, in nanoseconds since the beginning of 1970.
const IN_2001: u64 = 1_000_000_000_000_000_000;

/// Two files of a folder differ in their nodes, a device in its device; the moments when a file was made and when it was last changed are
/// known where the system says them.
#[test]
fn files_are_known_by_device_node_and_moments(rt: HostRuntime) -> Result<(), Fail> {
    fs::write(&rt, "known_one", &[1])?;
    fs::write(&rt, "known_two", &[1])?;
    let told = fs::metadata(&rt, "known_one")?;
    let one = Known::new(&told);
    let two = Known::new(&fs::metadata(&rt, "known_two")?);
    let null = Known::new(&fs::metadata(&rt, "/dev/null")?);
    fs::remove_file(&rt, "known_one")?;
    fs::remove_file(&rt, "known_two")?;
    assert!(rt;
        is_same(&one.device, &two.device) && one.node != two.node,
        "{one:?} {two:?}"
    );
    assert!(rt; null.device != one.device, "{one:?} {null:?}");
    assert!(rt;
        is_same(&(one.born > IN_2001), &told.created().is_ok()),
        "{one:?}"
    );
    assert!(rt; one.changed > IN_2001, "{one:?}");
    Ok(())
}
