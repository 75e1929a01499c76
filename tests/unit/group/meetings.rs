//! Calls of two threads that meet at a node.

use crate::fixtures::is_same;
use crate::group::acts::{Act, five, three, two};
use crate::group::bars::{Bar, TURNS};
use crate::group::calls::{Answer, Call, Step, Told, asked, called, source};
use crate::group::crossings::Crossing;
use crate::group::doorways::Doorway;
use crate::group::nodes::{Node, books, passes};
use crate::group::runs::{Steps, done, handed_in};
use crate::group::scenes::{ODD, QUIET, Seen};
use iiif_keys::{Fault, System};
use iiif_listener::stop;
use iiif_singleflight::Pass;
use iiif_source::Source;
use iiif_sum_group::{SumCalls, TileCalls};
use std::alloc::Global;
use std::net::{Net, TcpListener, TcpStream};
use std::sync::Wait;
use std::sync::ledger::Ledger;
use std::thread;
use std::thread::Threads;
use std::time::{Clock, Duration};

/// Two calls at once for tiles of the first row, and then, perhaps once the source is mended, a third for the first's tile.
pub(crate) struct Meeting {
    pub call: Call,
    pub columns: (u32, u32),
    /// The first load is held until the other call has joined. Else until the other is answered.
    pub joins: bool,
    pub mends: bool,
    /// The outcomes of the three.
    pub answers: (Answer, Answer, Answer),
}

/// A thread that makes one of the two calls. Where the first load is held until the other is answered, this thread lifts the gate behind
/// its own call. The one that is held there can't, so it goes on only once the other has its answer.
#[derive(Drop)]
struct Caller<'a, 'b, R, J: System>
where
    Doorway: Source<R>,
    TileCalls<J>: Ledger,
    SumCalls<J>: Ledger,
{
    alloc: Global,
    node: &'a Node<'b, R, J>,
    gate: &'a Bar,
    meeting: &'a Meeting,
    column: u32,
}

/// The outcome of a call, and its pass.
type Came<J> = Option<(Told, Pass<TileCalls<J>>)>;

impl<'a, 'b, R: Net<Stream = TcpStream> + Wait + Clock, J: System> Act<R> for Caller<'a, 'b, R, J> {
    type Came = Came<J>;

    fn act(&self, rt: &R) -> Came<J> {
        let mut pass = self.node.tiles().group().pass(rt)?;
        let at = (self.column, 0);
        let told = called(rt, self.alloc, self.node, &mut pass, &self.meeting.call, at);
        if !self.meeting.joins {
            self.gate.lift();
        }
        Some((told, pass))
    }
}

/// A thread that lifts the gate once so many calls have joined. Where it is held for an answer it is left to the thread that is answered.
#[derive(Drop)]
struct Lifter<'a, 'b, R, J: System>
where
    Doorway: Source<R>,
    TileCalls<J>: Ledger,
    SumCalls<J>: Ledger,
{
    node: &'a Node<'b, R, J>,
    gate: &'a Bar,
    meeting: &'a Meeting,
    joins: u64,
}

impl<'a, 'b, R: Wait + Clock, J: System> Act<R> for Lifter<'a, 'b, R, J> {
    type Came = bool;

    /// False where they don't join, or another load comes to the gate.
    fn act(&self, rt: &R) -> bool {
        if !self.meeting.joins {
            return true;
        }
        for _ in 0..TURNS {
            if self.node.tiles().group().book(rt).joins == self.joins {
                let alone = self.gate.passings() < 2;
                self.gate.lift();
                return alone;
            }
            thread::sleep(rt, Duration::from_millis(1));
        }
        false
    }
}

/// Two calls at once, of which the first to load is held at the gate until the other is as far as told. None where it doesn't come so
/// far, or a pass was missing.
fn both<'a, R, J>(
    rt: &R,
    alloc: Global,
    node: &'a Node<'_, R, J>,
    gate: &'a Bar,
    meeting: &'a Meeting,
) -> Option<((Told, Pass<TileCalls<J>>), (Told, Pass<TileCalls<J>>))>
where
    R: Net<Listener = TcpListener, Stream = TcpStream> + Threads + Wait + Clock + Send + Sync,
    J: System + Send + Sync,
{
    let (column, others) = meeting.columns;
    let one = Caller {
        alloc,
        node,
        gate,
        meeting,
        column,
    };
    let other = Caller {
        alloc,
        node,
        gate,
        meeting,
        column: others,
    };
    let lifter = Lifter {
        node,
        gate,
        meeting,
        joins: 1,
    };
    let ((one, other), is_lifted) = three(rt, &one, &other, &lifter);
    if !is_lifted {
        return None;
    }
    let one = one?;
    let other = other?;
    Some((one, other))
}

/// The observations of two calls that meet, and of a third with the first's pass.
pub(crate) fn met<'a, R, J>(
    rt: &R,
    alloc: Global,
    node: &'a Node<'_, R, J>,
    gate: &'a Bar,
    meeting: &'a Meeting,
) -> Result<Seen, Fault>
where
    R: Net<Listener = TcpListener, Stream = TcpStream> + Threads + Wait + Clock + Send + Sync,
    J: System + Send + Sync,
{
    let Some(((one, mut pass), (two, other))) = both(rt, alloc, node, gate, meeting) else {
        return Err(ODD);
    };
    let books = books(rt, node);
    if let (true, Some(source)) = (meeting.mends, source(node)) {
        source.inner.mend();
    }
    let at = (meeting.columns.0, 0);
    let third = called(rt, alloc, node, &mut pass, &meeting.call, at);
    let tiles = handed_in(rt, alloc, node.tiles().group(), pass, other)?;
    Ok(Seen {
        is_right: is_same(&(one.1, two.1, third.1), &meeting.answers),
        are_same: (is_same(&one.0, &two.0), is_same(&third.0, &two.0)),
        books,
        tiles,
        done: done(node, gate),
        ..QUIET
    })
}

/// Gives passes of tiles back, and says what their calls came to. None where a pass was missing.
fn returned<R: Wait + Clock, J: System>(
    rt: &R,
    node: &Node<'_, R, J>,
    came: (Came<J>, Came<J>),
) -> Option<(Told, Told)> {
    let (one, pass) = came.0?;
    node.tiles().group().give_back(rt, pass);
    let (two, other) = came.1?;
    node.tiles().group().give_back(rt, other);
    Some((one, two))
}

/// The observations of four calls at once for one tile, of which one leads and is held at the gate until the three others have joined it.
pub(crate) fn crowded<R, J>(
    rt: &R,
    alloc: Global,
    node: &Node<'_, R, J>,
    gate: &Bar,
    meeting: &Meeting,
) -> Result<Seen, Fault>
where
    R: Net<Listener = TcpListener, Stream = TcpStream> + Threads + Wait + Clock + Send + Sync,
    J: System + Send + Sync,
{
    let caller = Caller {
        alloc,
        node,
        gate,
        meeting,
        column: meeting.columns.0,
    };
    let lifter = Lifter {
        node,
        gate,
        meeting,
        joins: 3,
    };
    let ((first, last), is_lifted) = five(rt, &caller, &lifter);
    let (one, two) = returned(rt, node, first).ok_or(ODD)?;
    let (three, four) = returned(rt, node, last).ok_or(ODD)?;
    let told = (one.0, meeting.answers.0);
    Ok(Seen {
        is_right: is_lifted && is_same(&[one, two, three, four], &[told, told, told, told]),
        books: books(rt, node),
        done: done(node, gate),
        ..QUIET
    })
}

/// A thread that makes a step with passes of its own; where the node and another ask each other, until the other has its answer too, for
/// which this node is served.
#[derive(Drop)]
pub(crate) struct Asker<'a, 'b, R, J: System>
where
    Doorway: Source<R>,
    TileCalls<J>: Ledger,
    SumCalls<J>: Ledger,
{
    pub alloc: Global,
    pub node: &'a Node<'b, R, J>,
    pub step: &'a Step,
    pub crossing: Option<&'a Crossing<'a>>,
}

impl<'a, 'b, R: Net<Stream = TcpStream> + Wait + Clock, J: System> Act<R> for Asker<'a, 'b, R, J> {
    type Came = Answer;

    fn act(&self, rt: &R) -> Answer {
        let answer = match passes(rt, self.node) {
            Some(mut passes) => asked(rt, self.alloc, self.node, &mut passes, self.step),
            None => Err(ODD),
        };
        if let Some(crossing) = self.crossing {
            crossing.done.lift();
            crossing.others.holds(rt);
            stop(crossing.listener);
        }
        answer
    }
}

/// The observations of two steps at once, where the first read of `a` has to meet another.
pub(crate) fn overlapped<R, J>(
    rt: &R,
    alloc: Global,
    node: &Node<'_, R, J>,
    gate: &Bar,
    steps: Steps,
) -> Result<Seen, Fault>
where
    R: Net<Listener = TcpListener, Stream = TcpStream> + Threads + Wait + Clock + Send + Sync,
    J: System + Send + Sync,
{
    let [(one, came), (other, others)] = steps else {
        return Err(ODD);
    };
    let one = Asker {
        alloc,
        node,
        step: one,
        crossing: None,
    };
    let other = Asker {
        alloc,
        node,
        step: other,
        crossing: None,
    };
    let answers = two(rt, &one, &other);
    let is_met = matches!(source(node), Some(source) if !source.bar.is_left());
    Ok(Seen {
        is_right: is_same(&answers, &(*came, *others)) && is_met,
        books: books(rt, node),
        done: done(node, gate),
        ..QUIET
    })
}
