//! Gate that keeps the notes of a group's calls, and a group that records there.

use crate::group::bars::TURNS;
use crate::group::nodes::{ROOMY, ring};
use crate::samples::{Lax, Sample};
use iiif_group::{Cluster, Gate, Group, Note, Step, share};
use iiif_keys::{Fault, PARTS};
use iiif_source::ReadFault;
use iiif_tables::Class;
use std::alloc::Global;
use std::marker::Brand;
use std::num::NonZeroUsize;
use std::sync::ledger::Blank;
use std::sync::{Arc, Mutex, Wait};
use std::thread;
use std::time::{Clock, Duration};

/// Note as it was taken, with the number of the key that has its bytes.
#[derive(Clone, Copy, Debug, PartialEq)]
pub(crate) struct Noted {
    pub step: Step,
    pub class: Class,
    pub rank: u32,
    pub pass: u64,
    pub ticket: u64,
    pub number: Option<u8>,
}

/// Gate that lets each load begin at once and keeps the notes.
#[derive(Drop)]
pub(crate) struct Recorder {
    notes: Mutex<Vec<Noted>>,
}

impl Recorder {
    pub(crate) fn new(alloc: Global) -> Recorder {
        Recorder {
            notes: Mutex::new(Vec::new(alloc)),
        }
    }

    /// A copy of the notes. None where memory was wanted.
    pub(crate) fn noted<R: Wait>(&self, rt: &R, alloc: Global) -> Option<Vec<Noted>> {
        Vec::from_slice(alloc, &self.notes.lock(rt)).ok()
    }
}

/// Returns the number of the sample's key that has these bytes. None where no key has them.
fn number_of(bytes: &[u8]) -> Option<u8> {
    match bytes {
        [0, 1, b'a', 0, 0, 0, 1, 0, 0, 0, number, 0, 0, 0, 0] => Some(*number),
        _ => None,
    }
}

impl<R: Wait> Gate<R> for Recorder {
    ghost passed = { λ _ _. ⊤ };

    fn pass(&self, _rt: &R, _key_bytes: &[u8]) {}

    fn records(&self) -> bool {
        true
    }

    fn note(&self, rt: &R, note: &Note<'_>) {
        let noted = Noted {
            step: note.step,
            class: note.class,
            rank: note.rank,
            pass: note.pass,
            ticket: note.ticket,
            number: number_of(note.key),
        };
        let _kept = self.notes.lock(rt).push(noted);
    }
}

pub(crate) type Recorded<'a, N> = Group<Sample, Lax, Brand, N, &'a Recorder>;

/// Creates the group of the ring's only node, or of a node beside it, which has this link to that one.
pub(crate) fn group_at<'a, N: Drop>(
    alloc: Global,
    gate: &'a Recorder,
    own: Option<usize>,
    link: N,
) -> Option<Recorded<'a, N>> {
    let ring = ring(alloc).ok()?;
    let links = Vec::from_array(alloc, [link]).ok()?;
    let entries = NonZeroUsize::new(8)?;
    let cluster = Cluster { ring, own, links };
    Group::new(alloc, ROOMY, entries, gate, cluster, Blank::new(PARTS)).ok()
}

/// Waits until so many calls have led, and so many have joined.
pub(crate) fn wait_for<R: Wait + Clock, N>(
    rt: &R,
    group: &Recorded<'_, N>,
    leads: u64,
    joins: u64,
) {
    for _ in 0..TURNS {
        let book = group.book(rt);
        if book.leads >= leads && book.joins >= joins {
            return;
        }
        thread::sleep(rt, Duration::from_millis(1));
    }
}

/// The fault of a read at place 3.
pub(crate) const FAULT: Fault = Fault::Source(ReadFault {
    place: 3,
    cause: ReadFault::FAILED,
});

/// Returns the outcome of a load, of a value or with that fault.
pub(crate) fn loaded(alloc: Global, fails: bool) -> Result<Arc<u16>, Fault> {
    if fails {
        return Err(FAULT);
    }
    share(alloc, 42)
}

/// The first call of the first pass leads.
pub(crate) const LED: Noted = Noted {
    step: Step::Led,
    class: Class::Local,
    rank: Sample::RANK,
    pass: 1,
    ticket: 1,
    number: Some(1),
};
