//! A device that counts what is read of it.

use iiif_source::{MemSource, ReadFault, Source};
use std::marker::Model;
use std::sync::atomic::{AtomicU64, Ordering};

/// Bytes in memory, and how many of them were read, each as often as it was.
#[derive(Drop)]
pub struct ByteCounter {
    inner: MemSource,
    read: AtomicU64,
}

impl Model for ByteCounter {
    ghost Value = { List ℕ };

    ghost view = { λ s. s.inner };
}

impl ByteCounter {
    /// A device of which nothing was read yet.
    pub fn new(inner: MemSource) -> ByteCounter {
        ByteCounter {
            inner,
            read: AtomicU64::new(0),
        }
    }

    /// How many bytes were read.
    pub fn read(&self) -> u64 {
        self.read.load(Ordering::SeqCst)
    }
}

impl<R> Source<R> for ByteCounter {
    ghost bytes = { λ s. s };

    ghost keeps = { λ _. Unit {0} };

    ghost gave = { λ _ _. false };

    fn len(&self) -> u64 {
        Source::<R>::len(&self.inner)
    }

    fn read_at(&self, rt: &R, at: u64, buffer: &mut [u8]) -> Result<(), ReadFault> {
        self.read.fetch_add(buffer.len() as u64, Ordering::SeqCst);
        self.inner.read_at(rt, at, buffer)
    }
}
