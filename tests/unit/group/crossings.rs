//! Nodes that ask each other, and what a node replies to another.

use crate::fixtures::{is_same, is_same_text};
use crate::group::acts::served_beside;
use crate::group::bars::Bar;
use crate::group::calls::{HALVED, WHOLE};
use crate::group::doorways::Doorway;
use crate::group::meetings::Asker;
use crate::group::messages::EXCHANGES;
use crate::group::nodes::{Node, Setup, books, passes};
use crate::group::peers::LIMIT;
use crate::group::scenes::{ODD, QUIET, Seen};
use iiif_io::fakes::FailingReader;
use iiif_keys::{Fault, System};
use crate::fixtures::listeners::Serve;
use iiif_listener::{Arrival, Door as Name, Refused, Visit};
use iiif_peer_groups::Peers;
use iiif_peer_wire::serve_peer;
use iiif_source::Source;
use iiif_sum_group::{Handle, Passes, SumCalls, TileCalls};
use std::alloc::Global;
use std::net::{Net, TcpListener, TcpStream};
use std::sync::Wait;
use std::sync::ledger::Ledger;
use std::thread::Threads;
use std::time::{Clock, Duration};

/// A node that serves another while it asks that one.
#[derive(Drop)]
pub(crate) struct Crossing<'a> {
    pub listener: &'a TcpListener,
    /// Is lifted once this node has its answer.
    pub done: &'a Bar,
    /// Is lifted once the other has its own: until then it is served.
    pub others: &'a Bar,
}

/// A node as its listener has it.
#[derive(Drop)]
struct Door<'a, 'b, R, J: System>
where
    Doorway: Source<R>,
    TileCalls<J>: Ledger,
    SumCalls<J>: Ledger,
{
    node: &'a Node<'b, R, J>,
}

impl<'a, 'b, R: Net<Stream = TcpStream> + Wait + Clock, J: System> Refused<R>
    for Door<'a, 'b, R, J>
{
    fn report_refused(&self, _rt: &R, _door: Name) {}
}

impl<'a, 'b, R: Net<Stream = TcpStream> + Wait + Clock, J: System> Serve<R> for Door<'a, 'b, R, J> {
    fn serve<'p>(
        &self,
        rt: &'p R,
        alloc: Global,
        arrival: Arrival<'p, R>,
    ) -> Option<Arrival<'p, R>> {
        let Visit {
            mut stream,
            place: _place,
        } = arrival.visit;
        let _ = stream.set_read_timeout(Some(Duration::from_millis(LIMIT)));
        let mut passes = passes(rt, self.node)?;
        if let Ok(mut out) = stream.try_clone() {
            let peers = Peers {
                groups: Handle::new(self.node).local(),
            };
            serve_peer(rt, alloc, &peers, &mut passes, &mut stream, &mut out);
        }
        let Passes { tile, sum } = passes;
        self.node.tiles().group().give_back(rt, tile);
        self.node.sums().give_back(rt, sum);
        None
    }
}

/// The observations of a node that is asked for the sums of the whole of `a` while it and another serve each other.
pub(crate) fn crossed<R, J>(
    rt: &R,
    alloc: Global,
    node: &Node<'_, R, J>,
    setup: &Setup<'_>,
) -> Result<Seen, Fault>
where
    R: Net<Listener = TcpListener, Stream = TcpStream> + Threads + Wait + Clock + Send + Sync,
    J: System + Send + Sync,
{
    let Some(crossing) = &setup.crossing else {
        return Err(ODD);
    };
    let asker = Asker {
        alloc,
        node,
        step: &WHOLE,
        crossing: Some(crossing),
    };
    let answer = served_beside(rt, alloc, &Door { node }, crossing.listener, &asker);
    Ok(Seen {
        is_right: is_same(&answer, &Ok(HALVED)),
        books: books(rt, node),
        ..QUIET
    })
}

/// Whether a node writes these replies for these asks.
fn is_replied<R: Net<Stream = TcpStream> + Wait + Clock, J: System>(
    rt: &R,
    alloc: Global,
    node: &Node<'_, R, J>,
    passes: &mut Passes<J>,
    asks: &[u8],
    replies: &[u8],
) -> bool {
    let mut out: Vec<u8> = Vec::new(alloc);
    let mut reader = FailingReader {
        left: asks,
        piece: 7,
        reads: 1_000_000,
    };
    let peers = Peers {
        groups: Handle::new(node).local(),
    };
    serve_peer(rt, alloc, &peers, passes, &mut reader, &mut out);
    is_same_text(out.as_slice(), replies)
}

/// All asks, one behind another, and all replies. None where memory was wanted.
fn all_exchanges(alloc: Global) -> Option<(Vec<u8>, Vec<u8>)> {
    let mut asks: Vec<u8> = Vec::new(alloc);
    let mut replies: Vec<u8> = Vec::new(alloc);
    for exchange in EXCHANGES.iter() {
        asks.extend_from_slice(exchange.ask).ok()?;
        replies.extend_from_slice(exchange.reply).ok()?;
    }
    Some((asks, replies))
}

/// Each ask alone gets its reply; and all of them in one connection get theirs in order.
pub(crate) fn serves<R: Net<Stream = TcpStream> + Wait + Clock, J: System>(
    rt: &R,
    alloc: Global,
    node: &Node<'_, R, J>,
) -> Result<Seen, Fault> {
    let mut passes = passes(rt, node).ok_or(ODD)?;
    let mut is_right = true;
    for exchange in EXCHANGES.iter() {
        is_right &= is_replied(rt, alloc, node, &mut passes, exchange.ask, exchange.reply);
    }
    let (asks, replies) = all_exchanges(alloc).ok_or(Fault::NoMemory)?;
    is_right &= is_replied(rt, alloc, node, &mut passes, &asks, &replies);
    Ok(Seen { is_right, ..QUIET })
}
