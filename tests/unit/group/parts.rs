//! Two calls at once for a block whose parts its caller gets, as an image's workers make it.

use crate::fixtures::is_same;
use crate::group::acts::{Act, two};
use crate::group::bars::{Bar, TURNS};
use crate::group::calls::{Answer, sums_of};
use crate::group::doorways::Doorway;
use crate::group::keys::block_twice;
use crate::group::nodes::{Node, books, passes};
use crate::group::runs::done;
use crate::group::scenes::{ODD, QUIET, Seen};
use iiif_assemble::{Items, Opened};
use iiif_group_items::{GroupItems, JobQueue};
use iiif_keys::{Fault, SumKey, SumVal, System};
use iiif_source::Source;
use iiif_sum_group::{Handle, Passes, SumCalls, TileCalls};
use std::alloc::Global;
use std::net::{Net, TcpListener, TcpStream};
use std::sync::ledger::Ledger;
use std::sync::{Arc, Wait};
use std::thread;
use std::thread::Threads;
use std::time::{Clock, Duration};

/// The level of the block: the least one whose parts its caller gets.
const LEVEL: u8 = 3;

/// A thread that calls for the block of `a` whole at this level. Where it leads, it gets no part until the other call has joined.
#[derive(Drop)]
struct Worker<'a, 'b, R, J: System>
where
    Doorway: Source<R>,
    TileCalls<J>: Ledger,
    SumCalls<J>: Ledger,
{
    alloc: Global,
    node: &'a Node<'b, R, J>,
    queue: &'a JobQueue,
}

impl<'a, 'b, R: Net<Stream = TcpStream> + Wait + Clock, J: System> Act<R> for Worker<'a, 'b, R, J> {
    type Came = Answer;

    fn act(&self, rt: &R) -> Answer {
        let mut passes = passes(rt, self.node).ok_or(ODD)?;
        let key = block_twice(self.alloc, LEVEL, 0)?;
        let items = GroupItems(Handle::new(self.node), self.queue);
        let value = made(rt, self.alloc, &items, self.node, &mut passes, &key)?;
        Ok(sums_of(&*value))
    }
}

/// Whether another call has joined the flight of a block.
fn is_joined<R: Wait + Clock, J: System>(rt: &R, node: &Node<'_, R, J>) -> bool {
    for _ in 0..TURNS {
        if node.sums().book(rt).joins == 1 {
            return true;
        }
        thread::sleep(rt, Duration::from_millis(1));
    }
    false
}

/// The value of a block: what its flight ends with or, where the call leads, what its parts come to.
fn made<R, J, I>(
    rt: &R,
    alloc: Global,
    items: &I,
    node: &Node<'_, R, J>,
    passes: &mut Passes<J>,
    key: &SumKey,
) -> Result<Arc<SumVal>, Fault>
where
    R: Wait + Clock,
    J: System,
    I: Items<SumKey, SumVal, Passes<J>, R>,
{
    match items.open(rt, passes, key)? {
        Opened::Known(value) => Ok(value),
        Opened::Parts(load, parts) => {
            let values = if is_joined(rt, node) {
                values_of(rt, alloc, items, passes, &parts)
            } else {
                Err(ODD)
            };
            items.close(rt, load, key, parts, values)
        }
    }
}

/// The values of parts, or why one has none.
fn values_of<R, J, I>(
    rt: &R,
    alloc: Global,
    items: &I,
    passes: &mut Passes<J>,
    parts: &[SumKey],
) -> Result<Vec<Arc<SumVal>>, Fault>
where
    J: System,
    I: Items<SumKey, SumVal, Passes<J>, R>,
{
    let mut values = Vec::new(alloc);
    for part in parts {
        let value = match items.open(rt, passes, part)? {
            Opened::Known(value) => value,
            Opened::Parts(load, below) => items.close(rt, load, part, below, Err(ODD))?,
        };
        if values.push(value).is_err() {
            return Err(Fault::NoMemory);
        }
    }
    Ok(values)
}

/// The observations of two calls for the block, which both come to this.
pub(crate) fn parted<R, J>(
    rt: &R,
    alloc: Global,
    node: &Node<'_, R, J>,
    gate: &Bar,
    wanted: &Answer,
) -> Seen
where
    R: Net<Listener = TcpListener, Stream = TcpStream> + Threads + Wait + Clock + Send + Sync,
    J: System + Send + Sync,
{
    let queue = JobQueue::new(alloc, 1, 1);
    let worker = Worker {
        alloc,
        node,
        queue: &queue,
    };
    let answers = two(rt, &worker, &worker);
    Seen {
        is_right: is_same(&answers, &(*wanted, *wanted)),
        books: books(rt, node),
        done: done(node, gate),
        ..QUIET
    }
}
