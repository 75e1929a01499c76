//! A gate at which loads meet, and groups with that gate.

use iiif_ring::Ring;
use iiif_server::{Gate, GroupConfig, NoLink, Note, Room};
use std::alloc::Global;
use std::num::NonZeroUsize;
use std::sync::atomic::{AtomicBool, Ordering};
use std::sync::ledger::Blank;
use std::thread;
use std::time::{Clock, Duration};

/// A gate that holds the first load until another has come, for so many turns of 1 ms at most.
#[derive(Drop)]
pub struct Meeting {
    turns: u32,
    came: AtomicBool,
    met: AtomicBool,
    /// The first went on alone.
    pub alone: AtomicBool,
}

impl Meeting {
    /// A gate that no load has come to.
    pub(crate) fn new(turns: u32) -> Meeting {
        Meeting {
            turns,
            came: AtomicBool::new(false),
            met: AtomicBool::new(false),
            alone: AtomicBool::new(false),
        }
    }
}

impl<R: Clock> Gate<R> for Meeting {
    ghost passed = { λ _ _. ⊤ };

    fn pass(&self, rt: &R, _key_bytes: &[u8]) {
        if self.came.swap(true, Ordering::SeqCst) {
            self.met.store(true, Ordering::SeqCst);
            return;
        }
        for _ in 0..self.turns {
            if self.met.load(Ordering::SeqCst) {
                return;
            }
            thread::sleep(rt, Duration::from_millis(1));
        }
        self.alone.store(true, Ordering::SeqCst);
    }

    fn records(&self) -> bool {
        false
    }

    fn note(&self, _rt: &R, _note: &Note<'_>) {}
}

/// Makes the settings of a group that has room for so many bytes, and whose loads pass this gate.
pub(crate) fn group_config<'a>(
    alloc: Global,
    bytes: u64,
    gate: &'a Meeting,
    blank: Blank,
) -> Option<GroupConfig<NoLink, &'a Meeting>> {
    let entries = NonZeroUsize::new(1024)?;
    let mut names = Vec::new(alloc);
    names.push(String::from_str(alloc, "n").ok()?).ok()?;
    let ring = Ring::new(alloc, names).ok()?;
    let mut links = Vec::new(alloc);
    links.push(NoLink).ok()?;
    Some(GroupConfig {
        room: Room {
            bytes: bytes.min(67_108_864),
            entries,
        },
        gate,
        ring,
        own: Some(0),
        links,
        blank,
    })
}
