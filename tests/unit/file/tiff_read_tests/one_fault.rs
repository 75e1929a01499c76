//! A device of which one read fails.

use iiif_source::{MemSource, ReadFault, Source};
use std::marker::Model;
use std::sync::atomic::{AtomicU64, Ordering};

/// Bytes in memory that fail at one read, and at none before or after it.
#[derive(Drop)]
pub struct OneFault {
    inner: MemSource,
    failing: u64,
    reads: AtomicU64,
}

impl Model for OneFault {
    ghost Value = { List ℕ };

    ghost view = { λ s. s.inner };
}

impl OneFault {
    /// A device that fails at the read with this number, counted from 0.
    pub fn new(inner: MemSource, failing: u64) -> OneFault {
        OneFault {
            inner,
            failing,
            reads: AtomicU64::new(0),
        }
    }
}

impl<R> Source<R> for OneFault {
    ghost bytes = { λ s. s };

    ghost keeps = { λ _. Unit {0} };

    ghost gave = { λ _ f. f.cause == failed };

    fn len(&self) -> u64 {
        Source::<R>::len(&self.inner)
    }

    fn read_at(&self, rt: &R, at: u64, buffer: &mut [u8]) -> Result<(), ReadFault> {
        if self.reads.fetch_add(1, Ordering::SeqCst) == self.failing {
            return Err(ReadFault {
                place: at,
                cause: ReadFault::FAILED,
            });
        }
        self.inner.read_at(rt, at, buffer)
    }
}
