//! A link that fails and comes back, moment by moment.

use crate::fixtures::is_same;
use iiif_breaker::{Asks, Change, Durations, LinkRecord, Outcome, State};
use std::rt::HostRuntime;

/// Whether a link is asked at a moment, and that ask ends so.
fn ends(link: &mut LinkRecord, now: u64, outcome: Outcome) -> bool {
    match link.may_ask(now) {
        Some(number) => {
            link.report(now, number, outcome);
            true
        }
        None => false,
    }
}

/// Names what is told of a link: nothing, that it is left alone, or that it is asked again.
fn told(change: Option<Change>) -> &'static str {
    match change {
        None => "nothing",
        Some(Change::LeftAlone) => "left alone",
        Some(Change::AskedAgain) => "asked again",
    }
}

/// Names the state of a link, with its numbers: the faults in a row, or the moment and how long it rests.
fn standing(link: &LinkRecord) -> (&'static str, u64, u64) {
    match link.state() {
        State::Closed { faults } => ("closed", u64::from(faults), 0),
        State::Open { until, wait } => ("open", until, wait),
        State::HalfOpen { since, wait } => ("half open", since, wait),
    }
}

/// A link that is opened at 100 by an ask that nothing came of.
fn opened() -> LinkRecord {
    let mut link = LinkRecord::new();
    let _ = ends(&mut link, 100, Outcome::TimedOut);
    link
}

/// Moments of asks and how they end, and whether the link is asked then.
type Steps = &'static [(u64, Outcome, bool)];

/// Whether a link is asked at these moments as they say.
fn goes(link: &mut LinkRecord, steps: Steps) -> bool {
    for (now, outcome, asked) in steps.iter() {
        if !is_same(&(*now, ends(link, *now, *outcome)), &(*now, *asked)) {
            return false;
        }
    }
    true
}

/// Two faults, an answer, and three faults: then a second of rest.
const FAULTS_IN_A_ROW: Steps = &[
    (1, Outcome::Failed, true),
    (2, Outcome::Failed, true),
    (3, Outcome::Answered, true),
    (4, Outcome::Failed, true),
    (5, Outcome::Failed, true),
    (6, Outcome::Failed, true),
    (1_005, Outcome::Answered, false),
    (1_006, Outcome::Answered, true),
    (1_006, Outcome::Answered, true),
];

/// Each failure doubles the rest, up to a minute.
const RESTS: Steps = &[
    (1_099, Outcome::TimedOut, false),
    (1_100, Outcome::TimedOut, true),
    (3_099, Outcome::TimedOut, false),
    (3_100, Outcome::TimedOut, true),
    (7_100, Outcome::Failed, true),
    (15_100, Outcome::TimedOut, true),
    (31_099, Outcome::TimedOut, false),
    (31_100, Outcome::TimedOut, true),
    (63_099, Outcome::TimedOut, false),
    (63_100, Outcome::TimedOut, true),
    (123_099, Outcome::TimedOut, false),
    (123_100, Outcome::TimedOut, true),
    (183_099, Outcome::Answered, false),
    (183_100, Outcome::Answered, true),
    (183_100, Outcome::Answered, true),
];

#[test]
fn faults_in_a_row_open_a_link_and_rests_double(rt: HostRuntime) {
    assert!(rt; goes(&mut LinkRecord::new(), FAULTS_IN_A_ROW));
    assert!(rt; goes(&mut opened(), RESTS));
}

#[test]
fn one_asks_a_period_and_late_faults_change_nothing(rt: HostRuntime) {
    let mut link = LinkRecord::new();
    let first = link.may_ask(100);
    let second = link.may_ask(100);
    assert!(rt; is_same(&first, &Some(0)) && is_same(&second, &Some(0)));
    link.report(5_100, 0, Outcome::TimedOut);
    assert!(rt; is_same(&link.may_ask(6_099), &None));
    assert!(rt; is_same(&link.may_ask(6_100), &Some(1)));
    assert!(rt; is_same(&link.may_ask(7_099), &None));
    link.report(6_500, 0, Outcome::TimedOut);
    assert!(rt; is_same(&standing(&link), &("half open", 6_100, 1_000)));
    assert!(rt; is_same(&link.may_ask(7_100), &Some(1)));
    let asks = link.asks();
    assert!(rt;
        is_same(
            &[asks.timed_out, asks.skipped, asks.answered, asks.failed],
            &[2, 2, 0, 0]
        )
    );
}

#[test]
fn turns_are_told_and_refusals_counted_apart(rt: HostRuntime) {
    let mut link = LinkRecord::new();
    assert!(rt; is_same(&told(link.report(100, 0, Outcome::TimedOut)), &"left alone"));
    assert!(rt; is_same(&told(link.report(101, 1, Outcome::TimedOut)), &"nothing"));
    assert!(rt; is_same(&told(link.report(200, 1, Outcome::Refused)), &"asked again"));
    assert!(rt; is_same(&told(link.report(201, 1, Outcome::Answered)), &"nothing"));
    let asks = link.asks();
    assert!(rt;
        is_same(
            &[asks.timed_out, asks.refused, asks.answered, asks.failed],
            &[2, 1, 1, 0]
        )
    );
}

#[test]
fn looks_in_vain_leave_a_link_alone_and_count_no_ask(rt: HostRuntime) {
    let mut link = LinkRecord::new();
    let none = Asks::new();
    assert!(rt; is_same(&told(link.report_silent(100, &none)), &"left alone"));
    assert!(rt; is_same(&link.may_ask(1_099), &None));
    assert!(rt; is_same(&told(link.report_silent(1_099, &none)), &"nothing"));
    assert!(rt; is_same(&link.may_ask(2_098), &None));
    assert!(rt; is_same(&link.may_ask(2_099), &Some(2)));
    assert!(rt; is_same(&told(link.report_silent(2_200, &none)), &"nothing"));
    link.report(2_300, 2, Outcome::TimedOut);
    assert!(rt; is_same(&standing(&link), &("open", 3_200, 1_000)));
    assert!(rt;
        is_same(
            &told(link.report(2_400, 2, Outcome::Answered)),
            &"asked again"
        )
    );
    let asks = link.asks();
    assert!(rt;
        is_same(
            &[asks.timed_out, asks.skipped, asks.answered, asks.failed],
            &[1, 2, 1, 0]
        )
    );
}

#[test]
fn look_in_vain_keeps_the_rest_and_is_due_a_second_before_its_end(rt: HostRuntime) {
    let mut link = opened();
    assert!(rt; link.is_due(100));
    assert!(rt; ends(&mut link, 1_100, Outcome::TimedOut));
    assert!(rt; !link.is_due(2_099));
    assert!(rt; link.is_due(2_100));
    let before = link.asks();
    assert!(rt; is_same(&told(link.report_silent(2_100, &before)), &"nothing"));
    assert!(rt; is_same(&standing(&link), &("open", 4_100, 2_000)));
    assert!(rt; !link.is_due(3_099));
    assert!(rt; link.is_due(3_100));
}

#[test]
fn look_in_vain_says_nothing_of_a_node_that_answered_since(rt: HostRuntime) {
    let mut link = LinkRecord::new();
    let first = link.asks();
    link.report(100, 0, Outcome::Answered);
    let second = link.asks();
    link.report(101, 0, Outcome::Refused);
    assert!(rt; is_same(&told(link.report_silent(200, &first)), &"nothing"));
    assert!(rt; is_same(&told(link.report_silent(201, &second)), &"nothing"));
    assert!(rt; is_same(&standing(&link), &("closed", 0, 0)));
    let last = link.asks();
    assert!(rt; is_same(&told(link.report_silent(202, &last)), &"left alone"));
}

#[test]
fn durations_count_in_each_bucket_that_is_long_enough(rt: HostRuntime) {
    let mut durations = Durations::new();
    durations.count(1_000);
    durations.count(1_001);
    durations.count(600_000);
    durations.count(20_000_000);
    assert!(rt; is_same(&durations.within, &[1, 2, 2, 2, 2, 2, 3, 3]));
    assert!(rt; is_same(&durations.all, &4) && is_same(&durations.micros, &20_602_001));
}
