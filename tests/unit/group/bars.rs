//! Bars, at which threads meet.

use iiif_group::{Gate, Note};
use std::sync::atomic::{AtomicBool, AtomicU64, Ordering};
use std::thread;
use std::time::{Clock, Duration};

/// How often a turn of 1 ms is waited before a test fails.
pub(crate) const TURNS: u32 = 10_000;

/// Holds the first to come until it is lifted, and no other. As a gate it counts what passes.
#[derive(Drop)]
pub(crate) struct Bar {
    came: AtomicBool,
    lifted: AtomicBool,
    left: AtomicBool,
    passings: AtomicU64,
}

impl Bar {
    pub(crate) fn new(lifted: bool) -> Bar {
        Bar {
            came: AtomicBool::new(false),
            lifted: AtomicBool::new(lifted),
            left: AtomicBool::new(false),
            passings: AtomicU64::new(0),
        }
    }

    /// How many loads came to it as a gate.
    pub(crate) fn passings(&self) -> u64 {
        self.passings.load(Ordering::SeqCst)
    }

    pub(crate) fn lift(&self) {
        self.lifted.store(true, Ordering::SeqCst);
    }

    /// Whether the first went on though the bar wasn't lifted.
    pub(crate) fn is_left(&self) -> bool {
        self.left.load(Ordering::SeqCst)
    }

    /// Whether this is the first to come. It waits here.
    pub(crate) fn holds<R: Clock>(&self, rt: &R) -> bool {
        if self.came.swap(true, Ordering::SeqCst) {
            return false;
        }
        for _ in 0..TURNS {
            if self.lifted.load(Ordering::SeqCst) {
                return true;
            }
            thread::sleep(rt, Duration::from_millis(1));
        }
        self.left.store(true, Ordering::SeqCst);
        true
    }

    /// The first to come waits until another does.
    pub(crate) fn meet<R: Clock>(&self, rt: &R) {
        if !self.holds(rt) {
            self.lift();
        }
    }
}

impl<R: Clock> Gate<R> for Bar {
    ghost passed = { λ _ _. ⊤ };

    fn pass(&self, rt: &R, _key_bytes: &[u8]) {
        self.passings.fetch_add(1, Ordering::SeqCst);
        self.holds(rt);
    }

    fn records(&self) -> bool {
        false
    }

    fn note(&self, _rt: &R, _note: &Note<'_>) {}
}
