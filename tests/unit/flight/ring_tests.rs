//! Owners that were computed outside, by Python's `hashlib`, and the order of names.

use crate::fixtures::is_same;
use iiif_ring::{Ring, RingFault};
use std::alloc::Global;

/// A key whose next point is replica 11 of `x` and replica 1 of `1x`.
const TIED: [u8; 15] = [0, 1, 97, 0, 0, 0, 2, 0, 0, 0, 6, 0, 0, 0, 0];

const NAMES: &[&str] = &["node-b", "node-a", "é", "x", "1x", "10.0.0.7:8080"];

/// Names, a key, and the place of the name that owns it.
static OWNERS: [(&[&str], &[u8], usize); 29] = [
    (NAMES, b"key-0", 1),
    (NAMES, b"key-1", 4),
    (NAMES, b"key-2", 3),
    (NAMES, b"key-3", 3),
    (NAMES, b"key-4", 4),
    (NAMES, b"key-5", 4),
    (NAMES, b"key-6", 4),
    (NAMES, b"key-7", 1),
    (NAMES, b"key-8", 5),
    (NAMES, b"key-9", 1),
    (NAMES, b"key-10", 0),
    (NAMES, b"key-11", 0),
    (NAMES, b"key-12", 2),
    (NAMES, b"key-13", 0),
    (NAMES, b"key-14", 1),
    (NAMES, b"key-15", 5),
    (NAMES, b"key-16", 1),
    (NAMES, b"key-17", 5),
    (NAMES, b"key-18", 3),
    (NAMES, b"key-19", 5),
    (NAMES, b"key-20", 0),
    (NAMES, b"key-21", 1),
    (NAMES, b"key-22", 1),
    (NAMES, b"key-23", 0),
    // Replica 49 owns the first of these two; a replica 50 would own the other.
    (NAMES, b"key-208", 4),
    (NAMES, b"key-76", 5),
    // A key behind the last point goes to the first.
    (&["n", "m"], b"wrap-80", 1),
    // Two names that share a point go by their bytes.
    (&["x", "1x"], &TIED, 1),
    (&["1x", "x"], &TIED, 0),
];

/// Names, how many of `node 0` to `node 64` and then `node 64` again are taken behind them, and how many the ring has, or why there
/// is none.
static COUNTS: [(&[&str], u32, Result<usize, RingFault>); 5] = [
    (&["n", "n"], 0, Err(RingFault::Twice)),
    (&[], 0, Err(RingFault::Empty)),
    (&[], 64, Ok(64)),
    (&[], 65, Err(RingFault::TooMany)),
    (&[], 66, Err(RingFault::Twice)),
];

/// Faults, and their numbers.
static NUMBERS: [(RingFault, u8); 4] = [
    (RingFault::Empty, 1),
    (RingFault::Twice, 2),
    (RingFault::TooMany, 3),
    (RingFault::NoMemory, 4),
];

/// These names and so many from `node 0` on, where all behind `node 64` are `node 64` again.
fn texts(alloc: Global, names: &[&str], count: u32) -> Option<Vec<String>> {
    let mut all = Vec::new(alloc);
    for name in names {
        all.push(String::from_str(alloc, name).ok()?).ok()?;
    }
    for number in 0..count {
        let number = number.min(64);
        all.push(format!(in alloc; "node {number}").ok()?).ok()?;
    }
    Some(all)
}

/// The ring of these names.
fn ring(alloc: Global, names: &[&str], count: u32) -> Result<Ring, RingFault> {
    match texts(alloc, names, count) {
        Some(names) => Ring::new(alloc, names),
        None => Err(RingFault::NoMemory),
    }
}

/// How many names that ring has.
fn names_kept(alloc: Global, names: &[&str], count: u32) -> Result<usize, RingFault> {
    Ok(ring(alloc, names, count)?.names().len())
}

#[test]
fn names_that_make_no_ring(rt: HostRuntime) {
    for (names, count, kept) in &COUNTS {
        assert!(rt;
            is_same(&names_kept(rt.alloc(), names, *count), kept),
            "{count}"
        );
    }
    for (fault, number) in &NUMBERS {
        assert!(rt; is_same(&fault.number(), number), "{number}");
    }
}

/// The place of the name that owns a key.
fn owner(alloc: Global, names: &[&str], key: &[u8]) -> Option<usize> {
    Some(ring(alloc, names, 0).ok()?.owner(key))
}

#[test]
fn owners_as_computed_outside(rt: HostRuntime) {
    for (line, (names, key, place)) in OWNERS.iter().enumerate() {
        assert!(rt;
            is_same(&owner(rt.alloc(), names, key), &Some(*place)),
            "{line}"
        );
    }
}

/// The name that owns a key.
fn owner_name<'a>(ring: &'a Ring, key: &[u8]) -> Option<&'a str> {
    Some(ring.names().get(ring.owner(key))?.as_str())
}

/// Whether two rings name the same owner for each of 1,000 keys.
fn agree(one: &Ring, other: &Ring) -> bool {
    for number in 0..1000u32 {
        let key = number.to_be_bytes();
        let name = owner_name(one, &key);
        if name.is_none() || !is_same(&name, &owner_name(other, &key)) {
            return false;
        }
    }
    true
}

/// Whether the rings of these names and of those do.
fn are_of_one_mind(alloc: Global, names: &[&str], others: &[&str]) -> Option<bool> {
    let one = ring(alloc, names, 0).ok()?;
    Some(agree(&one, &ring(alloc, others, 0).ok()?))
}

/// One name owns every key, and the owners are the same in whatever order two names are given.
#[test]
fn owners_of_1000_keys(rt: HostRuntime) {
    assert!(rt; are_of_one_mind(rt.alloc(), &["n"], &["n"]) == Some(true));
    assert!(rt; are_of_one_mind(rt.alloc(), &["p", "q"], &["q", "p"]) == Some(true));
}
