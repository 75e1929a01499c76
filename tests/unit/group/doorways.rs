//! Files in memory whose reads may wait, and fail.

use crate::group::bars::Bar;
use iiif_source::{FuseSource, MemSource, ReadFault, Source};
use std::marker::Model;
use std::sync::atomic::{AtomicU64, Ordering};
use std::time::Clock;

pub(crate) type Fused = FuseSource<MemSource>;

/// How often each tile of `a` is read, row by row.
pub(crate) type Reads = [u64; 4];

/// A file in memory whose first read waits until another read is inside, and which counts how often each tile is read, also in vain. It
/// is seen as the file's bytes.
#[derive(Drop)]
pub(crate) struct Doorway {
    pub inner: Fused,
    pub bar: Bar,
    first: AtomicU64,
    second: AtomicU64,
    third: AtomicU64,
    last: AtomicU64,
}

impl Model for Doorway {
    ghost Value = { List ℕ };

    ghost view = { λ s. s.inner };
}

impl Doorway {
    /// A file whose first read waits, or one of which none does.
    pub(crate) fn new(inner: Fused, meets: bool) -> Doorway {
        Doorway {
            inner,
            bar: Bar::new(!meets),
            first: AtomicU64::new(0),
            second: AtomicU64::new(0),
            third: AtomicU64::new(0),
            last: AtomicU64::new(0),
        }
    }

    /// Counts the read of a tile of `a`, which begins with its first sample. Other reads go on with one.
    fn count(&self, at: u64) {
        let tile = match at {
            8 => &self.first,
            10 => &self.second,
            16 => &self.third,
            18 => &self.last,
            _ => return,
        };
        tile.fetch_add(1, Ordering::SeqCst);
    }

    /// How often each tile was read.
    pub(crate) fn reads(&self) -> Reads {
        [
            self.first.load(Ordering::SeqCst),
            self.second.load(Ordering::SeqCst),
            self.third.load(Ordering::SeqCst),
            self.last.load(Ordering::SeqCst),
        ]
    }
}

impl<R: Clock> Source<R> for Doorway {
    ghost bytes = { λ s. s };

    ghost keeps = { λ _. Unit {0} };

    ghost gave = { λ _ f. false || f.cause == fuse };

    fn len(&self) -> u64 {
        Source::<R>::len(&self.inner)
    }

    fn read_at(&self, rt: &R, at: u64, buffer: &mut [u8]) -> Result<(), ReadFault> {
        self.count(at);
        self.bar.meet(rt);
        self.inner.read_at(rt, at, buffer)
    }
}
