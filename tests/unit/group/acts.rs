//! Acts of threads at once. Each is a value of a type of its own.

use crate::fixtures::listeners::serve_listener;
use crate::fixtures::listeners::Serve;
use iiif_listener::{Admission, Refused};
use std::alloc::Global;
use std::net::TcpListener;
use std::sync::Wait;
use std::thread;
use std::thread::Threads;
use std::time::Clock;

/// An act of a thread. R is the runtime.
pub(crate) trait Act<R> {
    /// Its outcome.
    type Came;

    /// Does it.
    fn act(&self, rt: &R) -> Self::Came;
}

/// Two at once.
pub(crate) fn two<R, A, B>(rt: &R, one: &A, other: &B) -> (A::Came, B::Came)
where
    R: Threads + Sync,
    A: Act<R> + Sync,
    B: Act<R> + Sync,
    A::Came: Send + Drop,
    B::Came: Send + Drop,
{
    thread::join(rt, || one.act(rt), || other.act(rt))
}

/// Two of a kind and a third at once.
pub(crate) fn three<R, A, B>(rt: &R, one: &A, other: &A, third: &B) -> ((A::Came, A::Came), B::Came)
where
    R: Threads + Sync,
    A: Act<R> + Sync,
    B: Act<R> + Sync,
    A::Came: Send + Drop,
    B::Came: Send + Drop,
{
    thread::join(rt, || two(rt, one, other), || third.act(rt))
}

/// Does four acts at once.
fn by_four<R, A>(rt: &R, one: &A) -> ((A::Came, A::Came), (A::Came, A::Came))
where
    R: Threads + Sync,
    A: Act<R> + Sync,
    A::Came: Send + Drop,
{
    thread::join(rt, || two(rt, one, one), || two(rt, one, one))
}

/// Four times the same, and another at once.
pub(crate) fn five<R, A, B>(
    rt: &R,
    one: &A,
    other: &B,
) -> (((A::Came, A::Came), (A::Came, A::Came)), B::Came)
where
    R: Threads + Sync,
    A: Act<R> + Sync,
    B: Act<R> + Sync,
    A::Came: Send + Drop,
    B::Came: Send + Drop,
{
    thread::join(rt, || by_four(rt, one), || other.act(rt))
}

/// Whoever comes.
const ANYBODY: Admission<'static> = Admission {
    per_address: 0,
    known: None,
};

/// One beside a listener's service, which ends where it is stopped.
pub(crate) fn served_beside<R, D, A>(
    rt: &R,
    alloc: Global,
    door: &D,
    listener: &TcpListener,
    one: &A,
) -> A::Came
where
    R: Threads + Wait + Clock + Sync,
    D: Serve<R> + Refused<R> + Sync,
    A: Act<R> + Sync,
    A::Came: Send + Drop,
{
    let (_served, came) = thread::join(
        rt,
        || serve_listener(rt, alloc, door, listener, ANYBODY).is_ok(),
        || one.act(rt),
    );
    came
}
