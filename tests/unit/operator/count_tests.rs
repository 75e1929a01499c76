//! Counts.

use crate::fixtures::is_same;
use iiif_log::CutCause;
use iiif_metrics::{Counts, Tally, Visitors};
use std::sync::Wait;

/// The counts once two viewers' connections were opened and one closed, one of another node's and two of others were refused, one was
/// ousted, and three answers were sent and three cut off, two of them for one cause.
fn counted<R: Wait>(rt: &R) -> Counts {
    let tally = Tally::new();
    tally.count_opened(rt, Visitors::Viewers);
    tally.count_opened(rt, Visitors::Viewers);
    tally.count_refused(rt, Visitors::Peers);
    tally.count_refused(rt, Visitors::Statistics);
    tally.count_refused(rt, Visitors::Statistics);
    tally.count_ousted(rt, Visitors::Peers);
    tally.count_answer(rt, 200, 1000);
    tally.count_answer(rt, 501, 10);
    tally.count_answer(rt, 418, 1);
    tally.count_cut(rt, CutCause::Rate, 100);
    tally.count_cut(rt, CutCause::Memory, 20);
    tally.count_cut(rt, CutCause::Rate, 3);
    tally.count_closed(rt, Visitors::Viewers);
    tally.counts(rt)
}

#[test]
fn answers_and_connections_are_counted(rt: HostRuntime) {
    let wanted = Counts {
        whole: [1, 0, 0, 0, 0, 0, 1, 1],
        cut: [0, 0, 2, 0, 1, 0],
        bytes: 1134,
        open_now: [1, 0, 0],
        refused: [0, 1, 2],
        ousted: [0, 1, 0],
    };
    assert!(rt; is_same(&counted(&rt), &wanted));
}

#[test]
fn nothing_is_counted_at_first(rt: HostRuntime) {
    assert!(rt; is_same(&Tally::new().counts(&rt), &Counts::new()));
}
