//! Numbers and laws of `iiif_machine`, and the numbers of faults.

use crate::fixtures::{is_same, is_unwanted, is_written};
use iiif_machine::{Numbers, WorldFault, laws};
use iiif_world::SetupFault;
use std::alloc::Global;

/// Whether numbers are as given.
fn are_kept(alloc: Global) -> bool {
    match Vec::from_slice(alloc, [3usize, 5].as_slice()) {
        Ok(items) => is_same(&Numbers::new(items).items(), &[3usize, 5].as_slice()),
        Err(fault) => is_unwanted(&fault),
    }
}

#[test]
fn numbers_are_as_given(rt: HostRuntime) {
    assert!(rt; are_kept(rt.alloc()));
    laws::worlds_are_sound();
    laws::sound_worlds_answer_right();
    laws::flights_are_in_order();
    laws::events_are_allowed_exactly();
    laws::events_change_no_more();
    laws::faults_may_be_early();
    laws::the_owner_is_asked();
    laws::worked_lists_compute();
    laws::outcomes_have_origins();
    laws::each_run_is_right();
}

/// Whether a fault has this number and is written so.
fn is_said(alloc: Global, fault: WorldFault, number: u8, text: &str) -> bool {
    is_same(&fault.number(), &number) && is_written(alloc, &fault, text)
}

#[test]
fn faults_have_their_numbers_and_texts(rt: HostRuntime) {
    assert!(rt; is_said(rt.alloc(), WorldFault::NotNow, 1, "not now"));
    assert!(rt; is_said(rt.alloc(), WorldFault::NoMemory, 2, "out of memory"));
}

#[test]
fn setup_faults_have_their_numbers(rt: HostRuntime) {
    assert!(rt;
        is_same(&SetupFault::Room.number(), &2) && is_same(&SetupFault::NoMemory.number(), &5)
    );
}
