//! Steps with files and with sources of them, each with its wanted outcome.

use crate::fixtures::{is_missing, is_same};
use iiif_open_files::{OpenFiles, Opens, PathSource};
use iiif_source::{ReadFault, Runs, Source};
use std::alloc::Global;
use std::fs::File;
use std::io::ErrorKind;
use std::marker::{Send, Sync};
use std::num::NonZeroUsize;
use std::process::Abort;
use std::rt::Files;
use std::sync::{Arc, Wait};
use std::test::Fail;
use std::thread::Threads;
use std::{fs, io, thread};

/// So many bytes the runs of one read have at most.
const ROOM: usize = 800;

/// Where the first run begins, how far apart runs begin, how long each is, and how many they are.
pub(crate) type Place = (u64, u64, usize, u32);

/// The outcome of a read of runs.
#[derive(Clone, Copy, Debug, PartialEq)]
pub(crate) enum Outcome {
    /// The bytes of the file of that number.
    Right,
    /// Other bytes.
    Wrong,
    /// A fault of this cause.
    Fault(u8),
    /// It wasn't made: the runs aren't in the source.
    Outside,
}

/// The bytes of a file: these, or so many of the file of a number.
#[derive(Clone, Copy)]
pub(crate) enum Bytes {
    These(&'static [u8]),
    Numbered(u8, usize),
}

/// A change of a file behind its sources.
#[derive(Clone, Copy)]
pub(crate) enum Change {
    Removed,
    /// It has so many bytes from now on.
    Resized(u64),
    /// It is written over in its place.
    Written(Bytes),
    /// Another file, of these bytes, takes its name.
    Replaced(&'static [u8]),
    /// It is removed, and a file of these bytes is made in its place.
    MadeAgain(&'static [u8]),
}

/// A read of a source, and its wanted outcome.
#[derive(Clone, Copy)]
pub(crate) enum Ask {
    /// It has so many bytes.
    Len(u64),
    /// Its two bytes from a place on, or the cause of the fault at that place.
    Two(u64, Result<[u8; 2], u8>),
    /// Its runs, beside those of the file of a number.
    Runs(u8, Place, Outcome),
}

/// A call of a source, of a file or of the open files, and what is to come of it. Sources have numbers from 0 on, as they are opened.
#[derive(Clone, Copy)]
pub(crate) enum Step {
    /// A file is written, and a source of it is opened.
    Open(&'static str, Bytes),
    /// There is no such file, so no source of it.
    Nowhere(&'static str),
    Change(&'static str, Change),
    Ask(usize, Ask),
    /// So many files are kept open.
    Kept(usize),
    /// No more files than so many are kept open.
    KeptAtMost(usize),
}

/// The byte of the file of a number at a place.
fn byte_at(file: u8, place: u64) -> u8 {
    (place % 251) as u8 ^ file
}

/// The bytes of a file.
pub(crate) fn bytes_of(alloc: Global, bytes: Bytes) -> Result<Vec<u8>, Fail> {
    match bytes {
        Bytes::These(bytes) => Ok(Vec::from_slice(alloc, bytes)?),
        Bytes::Numbered(file, len) => {
            let mut bytes = vec![in alloc; 0u8; len]?;
            for (place, byte) in bytes.iter_mut().enumerate() {
                *byte = byte_at(file, place as u64);
            }
            Ok(bytes)
        }
    }
}

/// Whether the runs are those of the file of a number.
fn are_of(file: u8, runs: Runs, bytes: &[u8]) -> bool {
    if runs.len == 0 {
        return bytes.is_empty();
    }
    for (k, byte) in bytes.iter().enumerate() {
        let row = ((k / runs.len) as u64).wrapping_mul(runs.stride);
        let place = runs
            .at
            .wrapping_add(row)
            .wrapping_add((k % runs.len) as u64);
        if *byte != byte_at(file, place) {
            return false;
        }
    }
    true
}

/// Whether the runs are in a source of so many bytes, and have room.
pub(crate) fn fit(source: u64, runs: Runs, room: usize) -> bool {
    if runs.at > 1_000_000 || runs.stride > 1_000_000 || runs.len as u64 > runs.stride {
        return false;
    }
    if runs.count == 0 || runs.count as usize * runs.len > room {
        return false;
    }
    runs.at + (runs.count - 1) as u64 * runs.stride + runs.len as u64 <= source
}

/// Reads runs of a source, and compares them with those of the file of a number.
fn came<R>(rt: &R, source: &PathSource<R>, file: u8, runs: Runs) -> Outcome
where
    R: Opens + Wait,
{
    if !fit(Source::<R>::len(source), runs, ROOM) {
        return Outcome::Outside;
    }
    let mut room = [0; ROOM];
    let bytes = &mut room[..runs.count as usize * runs.len];
    match source.read_runs(rt, runs, bytes) {
        Ok(()) if are_of(file, runs, bytes) => Outcome::Right,
        Ok(()) => Outcome::Wrong,
        Err(fault) => Outcome::Fault(fault.cause),
    }
}

/// Two bytes of a source from a place on, where it has them.
fn two_at<R>(rt: &R, source: &PathSource<R>, at: u64) -> Result<[u8; 2], ReadFault>
where
    R: Opens + Wait,
{
    let mut pair = [0; 2];
    let len = Source::<R>::len(source);
    if len >= 2 && at <= len - 2 {
        source.read_at(rt, at, &mut pair)?;
    }
    Ok(pair)
}

/// Whether a source answers what it is to. Runs are asked so many bytes further on.
pub(crate) fn is_answered<R>(rt: &R, source: &PathSource<R>, ask: Ask, further: u32) -> bool
where
    R: Opens + Wait,
{
    match ask {
        Ask::Len(len) => is_same(&Source::<R>::len(source), &len),
        Ask::Two(at, Ok(pair)) => is_same(&two_at(rt, source, at), &Ok(pair)),
        Ask::Two(at, Err(cause)) => is_same(
            &two_at(rt, source, at),
            &Err(ReadFault { place: at, cause }),
        ),
        Ask::Runs(file, (at, stride, len, count), to_come) => {
            let at = at.wrapping_add(u64::from(further));
            let runs = Runs {
                at,
                stride,
                len,
                count,
            };
            is_same(&came(rt, source, file, runs), &to_come)
        }
    }
}

/// Whether the source of a number answers what it is to.
fn answers<R>(rt: &R, sources: &[PathSource<R>], number: usize, ask: Ask, further: u32) -> bool
where
    R: Opens + Wait,
{
    match sources.get(number) {
        Some(source) => is_answered(rt, source, ask, further),
        None => is_missing(),
    }
}

/// Whether sources answer what they are to, so many times over: runs from one byte further on each time, up to 63.
pub(crate) fn all_answer<R>(
    rt: &R,
    sources: &[PathSource<R>],
    asks: &[(usize, Ask)],
    turns: u32,
) -> bool
where
    R: Opens + Wait,
{
    for turn in 0..turns {
        for (number, ask) in asks {
            if !answers(rt, sources, *number, *ask, turn % 64) {
                return false;
            }
        }
    }
    true
}

/// Work of two threads with sources: how many files are kept open, the steps before, what the threads ask, each how often, and the
/// steps behind.
#[derive(Clone, Copy)]
pub(crate) struct Shared {
    pub most: usize,
    pub before: &'static [Step],
    pub asks: &'static [(usize, Ask)],
    pub turns: (u32, u32),
    pub behind: &'static [Step],
}

/// Whether sources answer two threads what they are to.
pub(crate) fn both_answer<R>(rt: &R, sources: &[PathSource<R>], shared: Shared) -> bool
where
    R: Opens + Wait + Threads + Sync,
    R::Handle: Send + Sync,
{
    let (asks, (one, other)) = (shared.asks, shared.turns);
    let both = thread::join(
        rt,
        || all_answer(rt, sources, asks, one),
        || all_answer(rt, sources, asks, other),
    );
    is_same(&both, &(true, true))
}

/// A source of a file.
pub(crate) fn open<R>(
    rt: &R,
    alloc: Global,
    files: &Arc<OpenFiles<R>>,
    path: &str,
) -> Result<io::Result<PathSource<R>>, Fail>
where
    R: Opens + Wait,
{
    let path = String::from_str(alloc, path)?;
    Ok(PathSource::open(rt, files.clone()?, path))
}

/// Writes a file.
fn write<R>(rt: &R, path: &str, bytes: Bytes) -> Result<(), Fail>
where
    R: Files<File = File> + AllocGlobal,
{
    Ok(fs::write(rt, path, bytes_of(rt.alloc(), bytes)?.as_slice())?)
}

/// Writes over a file in its place, until the system tells another time of its last change: the clock of its files ticks some milliseconds
/// apart.
pub(crate) fn write_over<R>(rt: &R, path: &str, bytes: Bytes) -> Result<(), Fail>
where
    R: Files<File = File> + AllocGlobal,
{
    let before = fs::metadata(rt, path)?.modified()?;
    loop {
        write(rt, path, bytes)?;
        if fs::metadata(rt, path)?.modified()? != before {
            return Ok(());
        }
    }
}

/// Writes another file, which takes the name of one that is there.
fn replace<R>(rt: &R, path: &str, bytes: &[u8]) -> Result<(), Fail>
where
    R: Files<File = File> + AllocGlobal,
{
    let new = format!(in rt.alloc(); "{path}_new")?;
    fs::write(rt, new.as_str(), bytes)?;
    Ok(fs::rename(rt, new.as_str(), path)?)
}

/// Sets the length of a file.
fn resize<R>(rt: &R, path: &str, len: u64) -> io::Result<()>
where
    R: Files<File = File>,
{
    File::options().write(true).open(rt, path)?.set_len(len)
}

/// Removes a file, and makes one of these bytes in its place.
fn make_again<R>(rt: &R, path: &str, bytes: &[u8]) -> io::Result<()>
where
    R: Files<File = File>,
{
    fs::remove_file(rt, path)?;
    fs::write(rt, path, bytes)
}

/// Changes a file.
fn change_file<R>(rt: &R, path: &str, how: Change) -> Result<(), Fail>
where
    R: Files<File = File> + AllocGlobal,
{
    match how {
        Change::Removed => Ok(fs::remove_file(rt, path)?),
        Change::Resized(len) => Ok(resize(rt, path, len)?),
        Change::Written(bytes) => write_over(rt, path, bytes),
        Change::Replaced(bytes) => replace(rt, path, bytes),
        Change::MadeAgain(bytes) => Ok(make_again(rt, path, bytes)?),
    }
}

/// Whether no source is opened of a file that is not there.
fn is_nowhere<R>(rt: &R, files: &Arc<OpenFiles<R>>, path: &str) -> Result<bool, Fail>
where
    R: Opens + Wait + AllocGlobal,
{
    match open(rt, rt.alloc(), files, path)? {
        Ok(_) => Ok(false),
        Err(error) => Ok(is_same(&error.kind(), &ErrorKind::NotFound)),
    }
}

/// Whether a step comes to what it is to.
fn is_right<R>(
    rt: &R,
    files: &Arc<OpenFiles<R>>,
    sources: &mut Vec<PathSource<R>>,
    step: Step,
) -> Result<bool, Fail>
where
    R: Files<File = File> + Wait + AllocGlobal,
{
    match step {
        Step::Open(path, bytes) => {
            write(rt, path, bytes)?;
            sources.push(open(rt, rt.alloc(), files, path)??)?;
        }
        Step::Change(path, how) => change_file(rt, path, how)?,
        Step::Nowhere(path) => return is_nowhere(rt, files, path),
        Step::Ask(number, ask) => return Ok(answers(rt, sources, number, ask, 0)),
        Step::Kept(count) => return Ok(is_same(&files.kept(rt), &count)),
        Step::KeptAtMost(count) => return Ok(files.kept(rt) <= count),
    }
    Ok(true)
}

/// So many open files, of no source yet.
pub(crate) fn open_files<R: Opens>(alloc: Global, most: usize) -> Result<Arc<OpenFiles<R>>, Fail> {
    let room = NonZeroUsize::new(most).ok_or("no room")?;
    Ok(Arc::new(alloc, OpenFiles::new(alloc, room)?)?)
}

/// Each step comes to what it is to.
pub(crate) fn play<R>(
    rt: &R,
    files: &Arc<OpenFiles<R>>,
    sources: &mut Vec<PathSource<R>>,
    steps: &[Step],
) -> Result<(), Fail>
where
    R: Files<File = File> + Wait + AllocGlobal + Abort,
{
    for (place, step) in steps.iter().enumerate() {
        assert!(rt; is_right(rt, files, sources, *step)?, "step {place}");
    }
    Ok(())
}

/// Takes these steps where so many files are kept open: each list so many times over, one list after another.
pub(crate) fn run<R>(rt: &R, most: usize, lists: &[(u32, &[Step])]) -> Result<(), Fail>
where
    R: Files<File = File> + Wait + AllocGlobal + Abort,
{
    let files = open_files(rt.alloc(), most)?;
    let mut sources = Vec::new(rt.alloc());
    for (times, steps) in lists {
        for _ in 0..*times {
            play(rt, &files, &mut sources, *steps)?;
        }
    }
    Ok(())
}
