//! Nodes over files in memory, and what comes of what they are asked.

use crate::fixtures::note;
use crate::server::calls::is_right;
use crate::server::cases::{Case, Setup, Table, Variant};
use crate::server::every::{Pictured, asks};
use crate::server::faulty::{Faulty, Reads};
use crate::server::meeting::{Meeting, group_config};
use crate::server::told::Told;
use iiif_canonical::Limits;
use iiif_keys::{PARTS, System};
use iiif_server::{Catalogue, Config, GroupConfig, NoLink, Node};
use iiif_source::MemSource;
use iiif_tiff_read::open;
use std::alloc::Global;
use std::marker::Brand;
use std::process::Abort;
use std::sync::Wait;
use std::sync::ledger::Blank;
use std::thread::Threads;
use std::time::Clock;

/// The reads of a node's file, its gates, and counts of its answers.
#[derive(Drop)]
pub(crate) struct Seen {
    pub reads: Reads,
    /// At which tiles meet.
    pub gate: Meeting,
    /// The gate at which sums pass, which don't wait for one another.
    pub open: Meeting,
    pub told: Told,
}

/// The settings of a node.
fn settings(alloc: Global, setup: &Setup<'_>) -> Option<Config> {
    let limits = Limits {
        max_w: setup.max,
        max_h: setup.max,
        upscale: setup.upscale,
    };
    let (edge, rows, workers) = (setup.edge, setup.rows, setup.workers);
    Config::new(alloc, "http://localhost/iiif", edge, limits, rows, workers).ok()
}

/// The file of a node.
fn file(alloc: Global, setup: &Setup<'_>) -> Option<Vec<u8>> {
    let mut file = Vec::from_slice(alloc, setup.file).ok()?;
    for (place, byte) in setup.changed {
        *file.get_mut(*place)? = *byte;
    }
    Some(file)
}

/// The images of a node.
fn images<'a, R>(
    rt: &R,
    alloc: Global,
    setup: &Setup<'_>,
    reads: &'a Reads,
) -> Option<Catalogue<R, Faulty<'a>>> {
    let name = String::from_str(alloc, setup.name).ok()?;
    let source = MemSource::new(file(alloc, setup)?);
    let Ok(layout) = open(rt, alloc, &source) else {
        return None;
    };
    let mut catalogue = Catalogue::new(alloc);
    let faulty = Faulty::new(source, setup.k, setup.once, reads);
    match catalogue.add(name, faulty, layout) {
        Ok(()) => Some(catalogue),
        Err(_) => None,
    }
}

/// How many of these come as they are to, one after another, before the first that doesn't, by so many workers of a node.
fn right_by_workers<R: Threads + Wait + Clock + Sync, J: System + Send + Sync>(
    rt: &R,
    alloc: Global,
    node: &Node<R, Faulty<'_>, J, NoLink, &Meeting>,
    workers: u32,
    seen: &Seen,
    cases: &[Case<'_>],
) -> Option<usize> {
    let mut passes = Vec::new(alloc);
    for _ in 0..workers {
        passes.push(node.pass(rt)?).ok()?;
    }
    let mut right = 0usize;
    for (ask, want) in cases {
        if !is_right(rt, alloc, node, &mut passes, seen, *ask, *want) {
            note("case", &(right, ask.target()));
            break;
        }
        right = right.saturating_add(1);
    }
    Some(right)
}

/// Counts them by a new node of these images.
fn right_by<R: Threads + Wait + Clock + Sync, J: System + Send + Sync>(
    rt: &R,
    alloc: Global,
    config: Config,
    images: Catalogue<R, Faulty<'_>>,
    tiles: GroupConfig<NoLink, &Meeting>,
    sums: GroupConfig<NoLink, &Meeting>,
    workers: u32,
    seen: &Seen,
    cases: &[Case<'_>],
) -> Option<usize> {
    let node = Node::<R, Faulty<'_>, J, NoLink, &Meeting>::new(
        alloc, config, images, tiles, sums,
    ).ok()?;
    right_by_workers(rt, alloc, &node, workers, seen, cases)
}

/// How many of these come as they are to of one new node, before the first that doesn't.
fn right_of<R: Threads + Wait + Clock + Sync>(
    rt: &R,
    alloc: Global,
    setup: &Setup<'_>,
    seen: &Seen,
    cases: &[Case<'_>],
) -> Option<usize> {
    let config = settings(alloc, setup)?;
    let images = images(rt, alloc, setup, &seen.reads)?;
    let tiles = group_config(alloc, setup.bytes, &seen.gate, Blank::new(PARTS))?;
    let sums = group_config(alloc, setup.bytes, &seen.open, Blank::new(PARTS))?;
    right_by::<R, Brand>(
        rt,
        alloc,
        config,
        images,
        tiles,
        sums,
        setup.workers,
        seen,
        cases,
    )
}

/// The first of these that doesn't come as it is to of one new node, or the very first where there is no such node.
fn first_wrong<R: Threads + Wait + Clock + Sync + AllocGlobal>(
    rt: &R,
    setup: &Setup<'_>,
    cases: &[Case<'_>],
) -> Option<usize> {
    let seen = Seen {
        reads: Reads::new(),
        gate: Meeting::new(setup.turns),
        open: Meeting::new(0),
        told: Told::new(),
    };
    match right_of(rt, rt.alloc(), setup, &seen, cases) {
        Some(right) if right == cases.len() => None,
        Some(right) => Some(right),
        None => Some(0),
    }
}

/// Whether all of these come as they are to of one new node.
pub(crate) fn are_right<R: Threads + Wait + Clock + Sync + AllocGlobal>(
    rt: &R,
    setup: &Setup<'_>,
    cases: &[Case<'_>],
) -> bool {
    first_wrong(rt, setup, cases).is_none()
}

/// The first variant of a node of which a new one doesn't answer all of these as it is to.
pub(crate) fn wrong_variant<R: Threads + Wait + Clock + Sync + AllocGlobal>(
    rt: &R,
    base: &Setup<'_>,
    variants: &[Variant],
    cases: &[Case<'_>],
) -> Option<Variant> {
    for variant in variants {
        let (edge, rows, workers, bytes) = *variant;
        let setup = Setup {
            edge,
            rows,
            workers,
            bytes,
            ..*base
        };
        if !are_right(rt, &setup, cases) {
            note("edge, rows, workers and bytes of the caches", variant);
            return Some(*variant);
        }
    }
    None
}

/// Whether a new node of each of these variants answers all of these images.
pub(crate) fn are_answered<R: Threads + Wait + Clock + Sync + AllocGlobal>(
    rt: &R,
    base: &Setup<'_>,
    variants: &[Variant],
    images: &[Pictured],
) -> bool {
    match asks(rt.alloc(), images) {
        Some(cases) => wrong_variant(rt, base, variants, &cases).is_none(),
        None => false,
    }
}

/// All of these tables' cases come as they are to.
pub(crate) fn all_are<R: Threads + Wait + Clock + Sync + AllocGlobal + Abort>(
    rt: &R,
    tables: &[Table],
) {
    for (name, setup, cases) in tables {
        let wrong = first_wrong(rt, setup, cases);
        assert!(rt; wrong.is_none(), "{name}: case {wrong:?}");
    }
}
