//! Records beside what a replay writes.

use crate::fixtures::is_same;
use iiif_records::{Verdict, judge};
use std::alloc::Global;

/// The text of a replay of two nodes: node 1 was stopped and ran again.
const REPLAYED: &str = "4 want 0 p full max 0 default: done\n\
    5 enter 0: done: leads 1 0\n> 0 leads local 1 0001\n\
    6 enter 1: done: hit 4\n> 1 hit wide 4 0002\n\
    7 stop 1: done\n> 1 stopped\n\
    8 land 0 kept: done: kept\n> 0 lands value kept local 1 0001\n\
    9 enter 2: done: joins 9 3\n> 1 joins wide 9 0003\n\
    10 enter 3: done: hit 1\n> 10 hit local 1 0001\n\
    11 stop 0: done\n> 0 stopped\n12 stop 1: done\n> 1 stopped\nrequest 0: none\n";

/// The record of node 0, with lines that are no steps, and one that a crash cut.
const WHOLE: &str = "set edge 256\nworker 3 4 \n3 leads local 1 0001\nends 3 200 \n0 lands value kept local 1 0001\n5 hit lo";

/// The verdict on a node's records.
fn verdict(alloc: Global, node: u64, records: &[&str]) -> Option<Verdict> {
    let mut runs = Vec::new(alloc);
    for text in records {
        let run = Vec::from_slice(alloc, text.as_bytes()).ok()?;
        runs.push(run).ok()?;
    }
    judge(alloc, node, REPLAYED.as_bytes(), &runs).ok()
}

/// Whether a verdict is this one.
fn comes_to(alloc: Global, node: u64, records: &[&str], wanted: Verdict) -> bool {
    is_same(&verdict(alloc, node, records), &Some(wanted))
}

#[test]
fn whole_records_stand(rt: HostRuntime) {
    let alloc = rt.alloc();
    assert!(rt; comes_to(alloc, 0, &[WHOLE], Verdict::Stands));
    assert!(rt; comes_to(alloc, 1, &["1 hit wide 4 0002\n", "1 joins wide 9 0003\n"], Verdict::Stands));
}

#[test]
fn other_records_differ(rt: HostRuntime) {
    let alloc = rt.alloc();
    let others: [&str; 6] = [
        // A step is missing, is another's, stands twice, or comes too early; the record ended before its node; another key.
        "3 leads local 1 0001\n",
        "3 leads local 2 0001\n0 lands value kept local 1 0001\n",
        "3 leads local 1 0001\n3 leads local 1 0001\n0 lands value kept local 1 0001\n",
        "0 lands value kept local 1 0001\n3 leads local 1 0001\n",
        "3 leads local 1 0001\n0 lands value kept local 1 0001\n0 ended\n",
        "3 leads local 1 0002\n0 lands value kept local 1 0001\n",
    ];
    for text in others.iter() {
        assert!(rt; comes_to(alloc, 0, &[*text], Verdict::Differs), "{text}");
    }
    assert!(rt; comes_to(alloc, 1, &[WHOLE], Verdict::Differs));
    assert!(rt; comes_to(alloc, 1, &["1 hit wide 4 0002\n1 joins wide 9 0003\n"], Verdict::Differs));
}

#[test]
fn bare_records_do_not_stand(rt: HostRuntime) {
    let alloc = rt.alloc();
    assert!(rt; comes_to(alloc, 0, &[], Verdict::Empty));
    assert!(rt; comes_to(alloc, 2, &[""], Verdict::Empty));
    assert!(rt; comes_to(alloc, 0, &[WHOLE, "set edge 256\nends 3 200 \n"], Verdict::Empty));
}
