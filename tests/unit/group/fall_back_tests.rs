//! Calls that fall back from an owner that gave no value, where this node has loaded the key already, or is loading it: the wide flight has
//! the outcome of the local one, and each step is noted once.

use crate::fixtures::names::name;
use crate::fixtures::{is_same, note};
use crate::group::bars::Bar;
use crate::group::keys::SAMPLE;
use crate::group::recorders::{FAULT, LED, Noted, Recorded, Recorder, group_at, loaded, wait_for};
use crate::samples::{Lax, Sample};
use iiif_group::{Begun, Ending, Link, LinkFault, Step};
use iiif_keys::{Fault, Shape};
use iiif_singleflight::{Pass, Receipt};
use iiif_tables::{Class, Place};
use std::alloc::Global;
use std::marker::Brand;
use std::sync::Wait;
use std::thread;
use std::thread::Threads;
use std::time::Clock;

/// Link to an owner that takes its time, and refuses.
#[derive(Drop)]
struct SlowLink<'a> {
    /// Lifted once the owner is asked.
    asked: &'a Bar,
    /// The owner replies once it is lifted.
    replies: &'a Bar,
}

impl<'a, R: Clock> Link<Sample, Lax, R> for SlowLink<'a> {
    fn ask(&self, rt: &R, _key: &Sample, _shape: &Shape) -> Result<u16, LinkFault> {
        self.asked.lift();
        self.replies.holds(rt);
        Err(LinkFault::Refused(3))
    }
}

/// The end of a flight: its ticket and its outcome.
type End = (u64, Result<u16, Fault>);

fn end_of(mut receipt: Receipt<Sample, Lax, Brand>) -> End {
    let ticket = receipt.ticket();
    match receipt.outcome() {
        Ok(value) => (ticket, Ok(**value)),
        Err(fault) => (ticket, Err(*fault)),
    }
}

/// Calls for the key, whose owner is asked. None where the call has to load.
fn call<R: Wait + Clock>(
    rt: &R,
    alloc: Global,
    group: &Recorded<'_, SlowLink<'_>>,
    mut pass: Pass<Brand>,
) -> Option<End> {
    let key = Sample::new(name(alloc, "a")?, 1);
    match group.begin(rt, &mut pass, &key, &SAMPLE) {
        Ok(Begun::Known(receipt)) => Some(end_of(receipt)),
        Ok(Begun::Load(load)) => {
            drop(group.complete(rt, load, loaded(alloc, false)));
            None
        }
        Err(_) => None,
    }
}

/// The local load of the key, begun while its owner is asked by another call.
#[derive(Clone, Copy)]
struct Load {
    /// Whether it ends before the owner replies. Else the owner replies once it has begun, and it ends once the other call has joined it.
    ends_first: bool,
    /// Whether it ends with a fault of the source in place of a value.
    fails: bool,
}

/// Loads the key so. None where the call doesn't lead.
fn load_local<R: Wait + Clock>(
    rt: &R,
    alloc: Global,
    group: &Recorded<'_, SlowLink<'_>>,
    mut pass: Pass<Brand>,
    bars: (&Bar, &Bar),
    how: Load,
) -> Option<()> {
    let (asked, replies) = bars;
    let key = Sample::new(name(alloc, "a")?, 1);
    asked.holds(rt);
    match group.begin_local(rt, &mut pass, &key, &SAMPLE) {
        Ok(Begun::Known(_)) => return None,
        Ok(Begun::Load(load)) => {
            if !how.ends_first {
                replies.lift();
                wait_for(rt, group, 2, 1);
            }
            drop(group.complete(rt, load, loaded(alloc, how.fails)));
            replies.lift();
        }
        Err(_) => return None,
    }
    Some(())
}

/// The end of the flight of a call that falls back while this load is made, and the notes of both.
fn fallen_back<R: Threads + Wait + Clock + Sync>(
    rt: &R,
    alloc: Global,
    how: Load,
) -> Option<(End, Vec<Noted>)> {
    let (asked, replies) = (Bar::new(false), Bar::new(false));
    let gate = Recorder::new(alloc);
    let link = SlowLink {
        asked: &asked,
        replies: &replies,
    };
    let group = group_at(alloc, &gate, None, link)?;
    let one = group.pass(rt)?;
    let two = group.pass(rt)?;
    let (end, load) = thread::join(
        rt,
        || call(rt, alloc, &group, one),
        || load_local(rt, alloc, &group, two, (&asked, &replies), how),
    );
    load?;
    Some((end?, gate.noted(rt, alloc)?))
}

/// The call leads the wide flight.
const WIDE: Noted = Noted {
    class: Class::Wide,
    ..LED
};

const ASKED: Noted = Noted {
    step: Step::Asked,
    ..WIDE
};

const FAILED: Noted = Noted {
    step: Step::Failed,
    ..WIDE
};

/// The other call leads the local flight.
const LOCAL: Noted = Noted {
    pass: 2,
    ticket: 2,
    ..LED
};

/// It lands, and its value is kept.
const LANDED: Noted = Noted {
    step: Step::Landed(Ending::Value, Place::Main, true),
    pass: 0,
    ..LOCAL
};

/// The wide flight lands, and keeps nothing.
const RELAYED: Noted = Noted {
    step: Step::Landed(Ending::Value, Place::Nowhere, false),
    pass: 0,
    ..WIDE
};

/// The call enters the local class, while the flight is open.
const JOINED: Noted = Noted {
    step: Step::Joined,
    pass: 1,
    ..LOCAL
};

/// A load, the end of the flight of a call that falls back meanwhile, and the notes of both.
struct Row {
    what: &'static str,
    how: Load,
    end: End,
    notes: [Noted; 7],
}

static ROWS: [Row; 3] = [
    Row {
        what: "The local flight has landed, and its value is hit.",
        how: Load {
            ends_first: true,
            fails: false,
        },
        end: (1, Ok(42)),
        notes: [
            WIDE,
            ASKED,
            LOCAL,
            LANDED,
            FAILED,
            Noted {
                step: Step::Hit,
                pass: 1,
                ..LOCAL
            },
            RELAYED,
        ],
    },
    Row {
        what: "The local flight is joined, and lands with a value.",
        how: Load {
            ends_first: false,
            fails: false,
        },
        end: (1, Ok(42)),
        notes: [WIDE, ASKED, LOCAL, FAILED, JOINED, LANDED, RELAYED],
    },
    Row {
        what: "The local flight is joined, and lands with the fault of its source.",
        how: Load {
            ends_first: false,
            fails: true,
        },
        end: (1, Err(FAULT)),
        notes: [
            WIDE,
            ASKED,
            LOCAL,
            FAILED,
            JOINED,
            Noted {
                step: Step::Landed(Ending::Fault, Place::Main, false),
                ..LANDED
            },
            Noted {
                step: Step::Landed(Ending::Fault, Place::Nowhere, false),
                ..RELAYED
            },
        ],
    },
];

/// Whether a row comes out; prints both sides where it doesn't.
fn is_right<R: Threads + Wait + Clock + Sync>(rt: &R, alloc: Global, row: &Row) -> bool {
    let want = Vec::from_slice(alloc, &row.notes).ok();
    let want = want.map(|notes| (row.end, notes));
    let is_right = is_same(&fallen_back(rt, alloc, row.how), &want);
    if !is_right {
        note("row", &row.what);
    }
    is_right
}

#[test]
fn call_that_falls_back_is_told_the_local_outcome(rt: HostRuntime) {
    let mut are_right = true;
    for row in ROWS.iter() {
        are_right &= is_right(&rt, rt.alloc(), row);
    }
    assert!(rt; are_right);
}
