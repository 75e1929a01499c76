//! Three nodes of one ring, each with a link to every place: which of them a node asks for a key, and what it keeps.

use crate::fixtures::is_same;
use crate::fixtures::names::name;
use crate::group::keys::SAMPLE;
use crate::group::nodes::ROOMY;
use crate::samples::{Lax, Sample};
use iiif_group::{Begun, Cluster, Group, Link, LinkFault, NoGate, share};
use iiif_keys::{PARTS, Shape};
use iiif_ring::Ring;
use std::alloc::Global;
use std::marker::Brand;
use std::num::NonZeroUsize;
use std::sync::ledger::Blank;
use std::sync::{Mutex, Wait};

/// Keys' numbers, and the places of the nodes that were asked for them.
type Asked = Vec<(u32, usize)>;

/// Link to the node of a place, which notes the key that it is asked for, and refuses.
#[derive(Drop)]
struct NotingLink<'a> {
    place: usize,
    asked: &'a Mutex<Asked>,
}

impl<'a, R: Wait> Link<Sample, Lax, R> for NotingLink<'a> {
    fn ask(&self, rt: &R, key: &Sample, _shape: &Shape) -> Result<u16, LinkFault> {
        let _kept = self.asked.lock(rt).push((key.number(), self.place));
        Err(LinkFault::Refused(3))
    }
}

/// The places of the nodes `node-a`, `node-b` and `node-c` that own the keys of `a` with the numbers from 0 on, by Python's `hashlib`.
static OWNERS: [usize; 16] = [1, 0, 1, 2, 0, 1, 0, 2, 0, 0, 1, 0, 1, 1, 2, 1];

fn name_of(alloc: Global, name: &str) -> Option<String> {
    String::from_str(alloc, name).ok()
}

/// The ring of the three nodes.
fn ring_of_three(alloc: Global) -> Option<Ring> {
    let names = [
        name_of(alloc, "node-a")?,
        name_of(alloc, "node-b")?,
        name_of(alloc, "node-c")?,
    ];
    Ring::new(alloc, Vec::from_array(alloc, names).ok()?).ok()
}

/// Calls for all of the keys, each of which is loaded.
fn load_all<R: Wait>(
    rt: &R,
    alloc: Global,
    group: &Group<Sample, Lax, Brand, NotingLink<'_>, NoGate>,
) -> Option<()> {
    let mut pass = group.pass(rt)?;
    for (number, _) in (0u32..).zip(OWNERS.iter()) {
        let key = Sample::new(name(alloc, "a")?, number);
        match group.begin(rt, &mut pass, &key, &SAMPLE) {
            Ok(Begun::Known(_)) => return None,
            Ok(Begun::Load(load)) => drop(group.complete(rt, load, share(alloc, 42))),
            Err(_) => return None,
        }
    }
    Some(())
}

/// The group of the node of this place, which keeps eight entries a list.
fn group_at<'a>(
    alloc: Global,
    own: usize,
    asked: &'a Mutex<Asked>,
    blank: Blank,
) -> Option<Group<Sample, Lax, Brand, NotingLink<'a>, NoGate>> {
    let links = [0, 1, 2].map(|place| NotingLink { place, asked });
    let cluster = Cluster {
        ring: ring_of_three(alloc)?,
        own: Some(own),
        links: Vec::from_array(alloc, links).ok()?,
    };
    let entries = NonZeroUsize::new(8)?;
    Group::new(alloc, ROOMY, entries, NoGate, cluster, blank).ok()
}

/// The keys for which the node of this place asks others, in their order, where it loads all.
fn asked_by<R: Wait>(rt: &R, alloc: Global, own: usize) -> Option<Asked> {
    let asked = Mutex::new(Vec::new(alloc));
    let group = group_at(alloc, own, &asked, Blank::new(PARTS))?;
    load_all(rt, alloc, &group)?;
    Vec::from_slice(alloc, &asked.lock(rt)).ok()
}

/// The numbers of the keys whose values the node of the first place holds.
fn held_in<R: Wait>(
    rt: &R,
    alloc: Global,
    group: &Group<Sample, Lax, Brand, NotingLink<'_>, NoGate>,
) -> Option<Vec<u32>> {
    let mut held = Vec::new(alloc);
    for (number, _) in (0u32..).zip(OWNERS.iter()) {
        if group.holds(rt, &Sample::new(name(alloc, "a")?, number)) {
            held.push(number).ok()?;
        }
    }
    Some(held)
}

/// Returns the keys that the node holds before it loads all of them, and behind that.
fn held_around<R: Wait>(rt: &R, alloc: Global) -> Option<(Vec<u32>, Vec<u32>)> {
    let asked = Mutex::new(Vec::new(alloc));
    let group = group_at(alloc, 0, &asked, Blank::new(PARTS))?;
    let before = held_in(rt, alloc, &group)?;
    load_all(rt, alloc, &group)?;
    Some((before, held_in(rt, alloc, &group)?))
}

/// The keys that other nodes own than the one of this place, and the places of their owners.
fn of_others(alloc: Global, own: usize) -> Option<Asked> {
    let mut keys = Vec::new(alloc);
    for (number, owner) in (0u32..).zip(OWNERS.iter()) {
        if *owner != own {
            keys.push((number, *owner)).ok()?;
        }
    }
    Some(keys)
}

#[test]
fn each_of_three_nodes_asks_a_keys_owner_once_and_nobody_for_its_own(rt: HostRuntime) {
    for own in 0..3usize {
        let asked = asked_by(&rt, rt.alloc(), own);
        let want = of_others(rt.alloc(), own);
        assert!(rt; is_same(&asked, &want), "node {own}");
    }
}

#[test]
fn node_holds_the_eight_values_that_it_loaded_last(rt: HostRuntime) {
    let want = Vec::from_array(rt.alloc(), [8u32, 9, 10, 11, 12, 13, 14, 15]).ok();
    let want = want.map(|last| (Vec::new(rt.alloc()), last));
    assert!(rt; is_same(&held_around(&rt, rt.alloc()), &want));
}
