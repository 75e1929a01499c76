//! Steps that a gate records, each once: calls that lead, join, hit and are refused, an owner that is asked, and flights that land.

use crate::fixtures::names::name;
use crate::fixtures::{is_missing, is_same};
use crate::group::keys::SAMPLE;
use crate::group::recorders::{LED, Noted, Recorded, Recorder, group_at, loaded, wait_for};
use crate::samples::Sample;
use iiif_group::{Begun, Ending, NoLink, Step};
use iiif_singleflight::Pass;
use iiif_tables::{Class, Place};
use std::alloc::Global;
use std::marker::Brand;
use std::sync::Wait;
use std::thread;
use std::thread::Threads;
use std::time::Clock;

/// Calls for the key of a number, and completes its load once so many calls have joined; hands the pass back.
fn call<R: Wait + Clock>(
    rt: &R,
    alloc: Global,
    group: &Recorded<'_, NoLink>,
    mut pass: Pass<Brand>,
    number: u32,
    joins: u64,
    fails: bool,
) -> Option<Pass<Brand>> {
    let key = Sample::new(name(alloc, "a")?, number);
    match group.begin(rt, &mut pass, &key, &SAMPLE) {
        Ok(Begun::Known(_)) => {}
        Ok(Begun::Load(load)) => {
            wait_for(rt, group, 0, joins);
            drop(group.complete(rt, load, loaded(alloc, fails)));
        }
        Err(_) => {}
    }
    Some(pass)
}

/// One call leads and lands once another has joined it. Then the first caller hits, leads a load that fails, and is refused.
fn meet_hit_fail_refuse<R: Threads + Wait + Clock + Sync>(
    rt: &R,
    alloc: Global,
    group: &Recorded<'_, NoLink>,
) -> Option<Pass<Brand>> {
    let one = group.pass(rt)?;
    let two = group.pass(rt)?;
    let (led, joined) = thread::join(
        rt,
        || call(rt, alloc, group, one, 1, 1, false),
        || {
            wait_for(rt, group, 1, 0);
            call(rt, alloc, group, two, 1, 1, false)
        },
    );
    joined?;
    let pass = call(rt, alloc, group, led?, 1, 1, false)?;
    let pass = call(rt, alloc, group, pass, 2, 1, true)?;
    call(rt, alloc, group, pass, Sample::UNCOPIED, 1, false)
}

const OF_OWN_KEYS: &[Noted] = &[
    LED,
    Noted {
        step: Step::Joined,
        pass: 2,
        ..LED
    },
    Noted {
        step: Step::Landed(Ending::Value, Place::Main, true),
        pass: 0,
        ..LED
    },
    Noted {
        step: Step::Hit,
        ..LED
    },
    Noted {
        ticket: 2,
        number: Some(2),
        ..LED
    },
    Noted {
        step: Step::Landed(Ending::Fault, Place::Main, false),
        pass: 0,
        ticket: 2,
        number: Some(2),
        ..LED
    },
    Noted {
        step: Step::Refused,
        ticket: 0,
        number: Some(255),
        ..LED
    },
];

/// The notes of these calls at a node that owns its keys, or of two calls at one that owns none; are they these?
fn are_noted<R: Threads + Wait + Clock + Sync>(
    rt: &R,
    alloc: Global,
    owns: bool,
    want: &[Noted],
) -> Option<bool> {
    let gate = Recorder::new(alloc);
    let group = group_at(alloc, &gate, if owns { Some(0) } else { None }, NoLink)?;
    let _pass = if owns {
        meet_hit_fail_refuse(rt, alloc, &group)?
    } else {
        let pass = call(rt, alloc, &group, group.pass(rt)?, 1, 0, false)?;
        call(rt, alloc, &group, pass, 1, 0, false)?
    };
    Some(is_same(&gate.noted(rt, alloc)?.as_slice(), &want))
}

#[test]
fn calls_and_landings_are_noted_once_each(rt: HostRuntime) {
    let noted = are_noted(&rt, rt.alloc(), true, OF_OWN_KEYS);
    assert!(rt; noted.unwrap_or_else(is_missing));
}

/// The wide flight keeps nothing, as the local one did.
const OF_ANOTHERS: &[Noted] = &[
    Noted {
        class: Class::Wide,
        ..LED
    },
    Noted {
        step: Step::Asked,
        class: Class::Wide,
        ..LED
    },
    Noted {
        step: Step::Failed,
        class: Class::Wide,
        ..LED
    },
    Noted { ticket: 2, ..LED },
    Noted {
        step: Step::Landed(Ending::Value, Place::Main, true),
        pass: 0,
        ticket: 2,
        ..LED
    },
    Noted {
        step: Step::Landed(Ending::Value, Place::Nowhere, false),
        class: Class::Wide,
        pass: 0,
        ..LED
    },
    Noted {
        step: Step::Hit,
        class: Class::Wide,
        ticket: 2,
        ..LED
    },
];

#[test]
fn asks_of_the_owner_and_both_landings_are_noted_once_each(rt: HostRuntime) {
    let noted = are_noted(&rt, rt.alloc(), false, OF_ANOTHERS);
    assert!(rt; noted.unwrap_or_else(is_missing));
}
