//! Calls for tiles and sums of a node.

use crate::group::doorways::Doorway;
use crate::group::keys::{block_twice, tile};
use crate::group::nodes::Node;
use iiif_group::{Begun, Open, share};
use iiif_keys::{Fault, SumKey, SumVal, System, TileKey, TileVal};
use iiif_pixel::Span;
use iiif_singleflight::{Pass, Receipt};
use iiif_sum_group::{Passes, SumCalls, TileCalls};
use std::alloc::Global;
use std::net::{Net, TcpStream};
use std::sync::{Arc, Wait};
use std::time::Clock;

/// How a value is called for.
pub(crate) enum Call {
    Get,
    GetLocal,
    /// By a group's own calls: `begin` or `begin_local`, and `complete` behind a load, which has to be exact.
    Begin,
    BeginLocal,
    /// Nothing is looked up, and nothing kept.
    Load,
}

/// A step with a node.
pub(crate) enum Step {
    /// The tile of `a` in this column and row is called for.
    Tile(Call, (u32, u32)),
    /// The sums of `a` are called for, of this block of the first row of a level.
    Sums(Call, u8, u32),
    /// The source of `a` is mended.
    Mend,
}

/// How many samples a tile has, or how many sums there are, and these: one, with nothing behind it, or four. Others are none.
pub(crate) type Numbers = (usize, [u64; 4]);

/// No numbers, or others.
pub(crate) const NONE: Numbers = (0, [0, 0, 0, 0]);

/// The sums of the whole of `a` at 2 by 2. Each sample counts 2 by 2 times: a sample of the source is 2 long where a place of the
/// result is 4.
pub(crate) const HALVED: Numbers = (4, [400, 720, 1680, 2000]);

/// The tiles (0, 0), (1, 0) and (1, 1) of `a`.
pub(crate) const FIRST: Numbers = (4, [0, 10, 40, 50]);

pub(crate) const SECOND: Numbers = (4, [20, 30, 60, 70]);

pub(crate) const LAST: Numbers = (4, [100, 110, 140, 150]);

/// A call for the sums of the whole of `a`.
pub(crate) const WHOLE: Step = Step::Sums(Call::Get, 1, 0);

/// The outcome of a step.
pub(crate) type Answer = Result<Numbers, Fault>;

/// The outcome of a call for a tile, and the ticket of the flight of which it is told, 0 where it is told of none.
pub(crate) type Told = (u64, Answer);

/// The samples of a tile.
fn samples_of(value: &TileVal) -> Numbers {
    match value.raster.samples() {
        Span::Eight([a, b, c, d]) => (
            4,
            [u64::from(*a), u64::from(*b), u64::from(*c), u64::from(*d)],
        ),
        _ => NONE,
    }
}

/// The sums of a block.
pub(crate) fn sums_of(value: &SumVal) -> Numbers {
    match value.sums.sums() {
        [a, b, c, d] => (4, [*a, *b, *c, *d]),
        [sum] => (1, [*sum, 0, 0, 0]),
        _ => NONE,
    }
}

/// The outcome that a receipt tells, or why there is none.
fn told<J: System>(came: Result<Receipt<TileKey, J, TileCalls<J>>, Fault>) -> Told {
    let mut receipt = match came {
        Ok(receipt) => receipt,
        Err(fault) => return (0, Err(fault)),
    };
    let ticket = receipt.ticket();
    match receipt.outcome() {
        Ok(value) => (ticket, Ok(samples_of(value))),
        Err(fault) => (ticket, Err(*fault)),
    }
}

/// Loads sums so.
fn sums_told<J: System>(came: Result<Receipt<SumKey, J, SumCalls<J>>, Fault>) -> Answer {
    match came?.outcome() {
        Ok(value) => Ok(sums_of(value)),
        Err(fault) => Err(*fault),
    }
}

/// The tile of a key from its source, or lack of memory.
fn loaded<R: Wait + Clock, J: System>(
    rt: &R,
    alloc: Global,
    node: &Node<'_, R, J>,
    key: &TileKey,
) -> Result<Arc<TileVal>, Fault> {
    match node.tiles().load(rt, key) {
        Ok(value) => share(alloc, value),
        Err(_) => Err(Fault::NoMemory),
    }
}

/// Loads what is owed. Lack of memory where the receipt has another outcome.
fn ended<R: Wait + Clock, J: System>(
    rt: &R,
    alloc: Global,
    node: &Node<'_, R, J>,
    load: Open<TileKey, J, TileCalls<J>>,
    key: &TileKey,
) -> Result<Receipt<TileKey, J, TileCalls<J>>, Fault> {
    let outcome = loaded(rt, alloc, node, key);
    let completed = node.tiles().group().complete(rt, load, outcome);
    if completed.exact {
        Ok(completed.receipt)
    } else {
        Err(Fault::NoMemory)
    }
}

/// A call for a tile by its group's own calls, of its owner or of this node alone.
fn begun<R: Net<Stream = TcpStream> + Wait + Clock, J: System>(
    rt: &R,
    alloc: Global,
    node: &Node<'_, R, J>,
    pass: &mut Pass<TileCalls<J>>,
    is_local: bool,
    key: &TileKey,
) -> Result<Receipt<TileKey, J, TileCalls<J>>, Fault> {
    let tiles = node.tiles();
    let shape = tiles.images().shape_of(key)?;
    if is_local {
        return match tiles.group().begin_local(rt, pass, key, &shape) {
            Ok(Begun::Known(receipt)) => Ok(receipt),
            Ok(Begun::Load(load)) => ended(rt, alloc, node, load, key),
            Err(_) => Err(Fault::NoMemory),
        };
    }
    match tiles.group().begin(rt, pass, key, &shape) {
        Ok(Begun::Known(receipt)) => Ok(receipt),
        Ok(Begun::Load(load)) => ended(rt, alloc, node, load, key),
        Err(_) => Err(Fault::NoMemory),
    }
}

/// The outcome of a call for a tile, or of its load.
pub(crate) fn called<R: Net<Stream = TcpStream> + Wait + Clock, J: System>(
    rt: &R,
    alloc: Global,
    node: &Node<'_, R, J>,
    pass: &mut Pass<TileCalls<J>>,
    call: &Call,
    at: (u32, u32),
) -> Told {
    let key = match tile(alloc, "a", at) {
        Ok(key) => key,
        Err(fault) => return (0, Err(fault)),
    };
    match call {
        Call::Get => told(node.tiles().get(rt, pass, &key)),
        Call::GetLocal => told(node.tiles().get_local(rt, pass, &key)),
        Call::Begin => told(begun(rt, alloc, node, pass, false, &key)),
        Call::BeginLocal => told(begun(rt, alloc, node, pass, true, &key)),
        Call::Load => match node.tiles().load(rt, &key) {
            Ok(value) => (0, Ok(samples_of(&value))),
            Err(fault) => (0, Err(fault)),
        },
    }
}

/// The outcome of a call for sums, or of their load.
fn sums_called<R: Net<Stream = TcpStream> + Wait + Clock, J: System>(
    rt: &R,
    alloc: Global,
    node: &Node<'_, R, J>,
    passes: &mut Passes<J>,
    call: &Call,
    place: (u8, u32),
) -> Answer {
    let key = block_twice(alloc, place.0, place.1)?;
    match call {
        Call::Get => sums_told(node.get(rt, passes, &key)),
        Call::GetLocal => sums_told(node.get_local(rt, passes, &key)),
        Call::Load => match node.load(rt, passes, &key) {
            Ok(value) => Ok(sums_of(&value)),
            Err(fault) => Err(fault),
        },
        Call::Begin | Call::BeginLocal => Err(Fault::BadKey),
    }
}

/// The source of `a`.
pub(crate) fn source<'a, R: Clock, J: System>(node: &'a Node<'_, R, J>) -> Option<&'a Doorway> {
    match node.tiles().images().catalogue().find("a") {
        Some(entry) => Some(&entry.source),
        None => None,
    }
}

/// Takes a step.
pub(crate) fn asked<R: Net<Stream = TcpStream> + Wait + Clock, J: System>(
    rt: &R,
    alloc: Global,
    node: &Node<'_, R, J>,
    passes: &mut Passes<J>,
    step: &Step,
) -> Answer {
    match step {
        Step::Tile(call, at) => called(rt, alloc, node, &mut passes.tile, call, *at).1,
        Step::Sums(call, level, bx) => sums_called(rt, alloc, node, passes, call, (*level, *bx)),
        Step::Mend => match source(node) {
            Some(source) => {
                source.inner.mend();
                Ok(NONE)
            }
            None => Err(Fault::UnknownName),
        },
    }
}
