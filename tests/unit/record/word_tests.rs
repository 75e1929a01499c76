//! Words of steps.

use crate::fixtures::is_same;
use iiif_group::{Ending, Step};
use iiif_recorder::{step_words, unread_words};
use iiif_tables::Place;

/// Each step of a group, and its words.
static WORDS: [(Step, &str); 18] = [
    (Step::Hit, "hit"),
    (Step::Joined, "joins"),
    (Step::Led, "leads"),
    (Step::Refused, "refused"),
    (Step::Asked, "asks"),
    (Step::Answered, "answered"),
    (Step::Failed, "failed"),
    (Step::Landed(Ending::Value, Place::Main, true), "lands value kept"),
    (Step::Landed(Ending::Value, Place::Peer, false), "lands value dropped"),
    (Step::Landed(Ending::Fault, Place::Main, true), "lands fault kept"),
    (Step::Landed(Ending::Fault, Place::Nowhere, false), "lands fault dropped"),
    (Step::Landed(Ending::NoMemory, Place::Main, true), "lands memory kept"),
    (Step::Landed(Ending::NoMemory, Place::Main, false), "lands memory dropped"),
    (Step::Read, "reads"),
    (Step::Served, "serves"),
    (Step::Replied(0), "replies value"),
    (Step::Replied(1), "replies fault"),
    (Step::Replied(2), "replies nothing"),
];

#[test]
fn steps_have_their_words(rt: HostRuntime) {
    for (step, words) in WORDS.iter() {
        assert!(rt; is_same(&step_words(*step), words), "{words}");
    }
}

#[test]
fn failed_read_has_its_place_and_cause(rt: HostRuntime) {
    let words = unread_words(rt.alloc(), 17, 3);
    assert!(rt; words.is_ok_and(|text| text.as_str() == "fails 17 3"));
}
