//! A file of which some reads fail.

use crate::server::cases::NEVER;
use iiif_source::{MemSource, ReadFault, Source};
use std::marker::Model;
use std::sync::atomic::{AtomicBool, AtomicU64, Ordering};

/// The reads of a file, and whether it is mended. They stand beside the node, which lends no source.
#[derive(Drop)]
pub(crate) struct Reads {
    made: AtomicU64,
    mended: AtomicBool,
}

impl Reads {
    /// None was made yet.
    pub(crate) fn new() -> Reads {
        Reads {
            made: AtomicU64::new(0),
            mended: AtomicBool::new(false),
        }
    }

    /// From now on no read fails.
    pub(crate) fn mend(&self) {
        self.mended.store(true, Ordering::SeqCst);
    }

    /// How many reads were made, with those that failed.
    pub(crate) fn made(&self) -> u64 {
        self.made.load(Ordering::SeqCst)
    }
}

/// A file in memory, of whose reads some fail until it is mended: from the k-th on, or the k-th alone.
#[derive(Drop)]
pub(crate) struct Faulty<'a> {
    inner: MemSource,
    first: u64,
    last: u64,
    reads: &'a Reads,
}

impl<'a> Model for Faulty<'a> {
    ghost Value = { List ℕ };

    ghost view = { λ s. s.inner };
}

impl<'a> Faulty<'a> {
    /// A file of which the k-th read fails, counted from 1, and each later one where it doesn't fail once.
    pub(crate) fn new(inner: MemSource, k: u64, once: bool, reads: &'a Reads) -> Faulty<'a> {
        Faulty {
            inner,
            first: k,
            last: if once { k } else { NEVER },
            reads,
        }
    }
}

impl<'a, R> Source<R> for Faulty<'a> {
    ghost bytes = { λ s. bytes_of s };

    ghost keeps = { λ s. keeps_of s };

    ghost gave = { λ s f. fused_gave s f };

    fn len(&self) -> u64 {
        Source::<R>::len(&self.inner)
    }

    fn read_at(&self, rt: &R, at: u64, buffer: &mut [u8]) -> Result<(), ReadFault> {
        let number = self
            .reads
            .made
            .fetch_add(1, Ordering::SeqCst)
            .saturating_add(1);
        let fails = self.first <= number && number <= self.last;
        if fails && !self.reads.mended.load(Ordering::SeqCst) {
            return Err(ReadFault {
                place: at,
                cause: ReadFault::FUSE,
            });
        }
        self.inner.read_at(rt, at, buffer)
    }
}
