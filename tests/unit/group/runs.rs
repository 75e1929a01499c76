//! Steps of one thread at a node.

use crate::fixtures::is_same;
use crate::group::bars::Bar;
use crate::group::calls::{Answer, Step, asked, source};
use crate::group::nodes::{Node, books, passes};
use crate::group::scenes::{Done, ODD, QUIET, Seen};
use iiif_group::Group;
use iiif_keys::{CacheKey, Fault, System};
use iiif_singleflight::Pass;
use iiif_sum_group::Passes;
use iiif_tables::Book;
use std::alloc::Global;
use std::net::{Net, TcpStream};
use std::sync::Wait;
use std::sync::ledger::Ledger;
use std::time::Clock;

/// Steps, and what each comes to.
pub(crate) type Steps = &'static [(Step, Answer)];

/// Steps of one thread.
pub(crate) struct Stages {
    pub first: Steps,
    pub then: Steps,
    /// Whether the pass of the sums is handed in where they are gathered. Else it is given back before, as that of the tiles is.
    pub hands_in: bool,
}

/// Whether each step came to what was wanted, and whether memory was wanted for one of them, which was made once more then.
fn stepped<R: Net<Stream = TcpStream> + Wait + Clock, J: System>(
    rt: &R,
    alloc: Global,
    node: &Node<'_, R, J>,
    passes: &mut Passes<J>,
    steps: Steps,
) -> (bool, bool) {
    let mut is_right = true;
    let mut is_refused = false;
    for (step, wanted) in steps {
        let mut answer = asked(rt, alloc, node, passes, step);
        if answer == Err(Fault::NoMemory) {
            is_refused = true;
            answer = asked(rt, alloc, node, passes, step);
        }
        is_right &= is_same(&answer, wanted);
    }
    (is_right, is_refused)
}

/// The counts, and the share that was home, where all passes but these are. Then all is home: gathered again it is the same.
fn gathered<K: CacheKey, J: System, L: Ledger, N, T, R: Wait>(
    rt: &R,
    alloc: Global,
    group: &Group<K, J, L, N, T>,
    passes: Vec<Pass<L>>,
) -> Result<(Book, u64), Fault> {
    let Ok(all) = group.gather(rt, passes) else {
        return Err(ODD);
    };
    match group.gather(rt, Vec::new(alloc)) {
        Ok(again) if again == (all.0, all.0.gets) => Ok(all),
        _ => Err(ODD),
    }
}

/// The counts, and the share that came home: in vain with one pass kept back, and then with both handed in.
pub(crate) fn handed_in<K: CacheKey, J: System, L: Ledger, N, T, R: Wait>(
    rt: &R,
    alloc: Global,
    group: &Group<K, J, L, N, T>,
    one: Pass<L>,
    two: Pass<L>,
) -> Result<(Book, u64), Fault> {
    let Ok(passes) = Vec::from_array(alloc, [one]) else {
        return Err(Fault::NoMemory);
    };
    let Err(mut back) = group.gather(rt, passes) else {
        return Err(ODD);
    };
    if back.push(two).is_err() {
        return Err(Fault::NoMemory);
    }
    gathered(rt, alloc, group, back)
}

/// The counts, and the share that came home with a pass that is given back, where no other is out; or that is handed in beside
/// another.
fn home<K: CacheKey, J: System, L: Ledger, N, T, R: Wait>(
    rt: &R,
    alloc: Global,
    group: &Group<K, J, L, N, T>,
    pass: Pass<L>,
    hands_in: bool,
) -> Result<(Book, u64), Fault> {
    if hands_in {
        return match group.pass(rt) {
            Some(other) => handed_in(rt, alloc, group, other, pass),
            None => Err(ODD),
        };
    }
    group.give_back(rt, pass);
    gathered(rt, alloc, group, Vec::new(alloc))
}

/// The reads and passings so far.
pub(crate) fn done<R: Clock, J: System>(node: &Node<'_, R, J>, gate: &Bar) -> Done {
    match source(node) {
        Some(source) => (source.reads(), gate.passings()),
        None => QUIET.done,
    }
}

/// The observations of steps.
pub(crate) fn ran<R: Net<Stream = TcpStream> + Wait + Clock, J: System>(
    rt: &R,
    alloc: Global,
    node: &Node<'_, R, J>,
    gate: &Bar,
    stages: &Stages,
) -> Result<Seen, Fault> {
    let mut passes = passes(rt, node).ok_or(ODD)?;
    let first = stepped(rt, alloc, node, &mut passes, stages.first);
    let between = books(rt, node);
    let then = stepped(rt, alloc, node, &mut passes, stages.then);
    let last = books(rt, node);
    let Passes { tile, sum } = passes;
    let tiles = home(rt, alloc, node.tiles().group(), tile, false);
    let sums = home(rt, alloc, node.sums(), sum, stages.hands_in);
    let (tiles, sums) = (tiles?, sums?);
    Ok(Seen {
        is_right: first.0 && then.0 && is_same(&last, &(tiles.0, sums.0)),
        is_refused: first.1 || then.1,
        books: between,
        tiles,
        sums,
        done: done(node, gate),
        ..QUIET
    })
}

/// Whether so many passes are given out and no more.
pub(crate) fn gives_out<R: Wait + Clock, J: System>(
    rt: &R,
    node: &Node<'_, R, J>,
    count: u32,
) -> Seen {
    let group = node.tiles().group();
    let mut given = 0u32;
    for _ in 0..count {
        if group.pass(rt).is_none() {
            break;
        }
        given = given.saturating_add(1);
    }
    Seen {
        is_right: is_same(&given, &count) && group.pass(rt).is_none(),
        ..QUIET
    }
}
