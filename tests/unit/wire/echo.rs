//! A service for tests.

use crate::fixtures::is_same;
use crate::fixtures::listeners::Serve;
use iiif_listener::{Arrival, Door, Refused, Visit};
use std::alloc::Global;
use std::io::{Read, Write};
use std::net::{Net, TcpListener, TcpStream};
use std::sync::Wait;
use std::sync::atomic::{AtomicU64, Ordering};
use std::time::Duration;

/// How long a viewer may send or take nothing, in milliseconds.
const IDLE: u64 = 2000;

/// Greets with a byte, and sends back one byte after another until the viewer ends or is silent.
#[derive(Drop)]
pub struct Echo {
    /// How many connections were served.
    pub served: AtomicU64,
    /// How many were closed unanswered.
    pub turned_away: AtomicU64,
}

impl Echo {
    pub(crate) fn new() -> Echo {
        Echo {
            served: AtomicU64::new(0),
            turned_away: AtomicU64::new(0),
        }
    }

    /// How many connections were served so far, and how many weren't.
    pub(crate) fn counts(&self) -> (u64, u64) {
        let served = self.served.load(Ordering::SeqCst);
        (served, self.turned_away.load(Ordering::SeqCst))
    }
}

impl<R> Refused<R> for Echo {
    fn report_refused(&self, _rt: &R, _door: Door) {
        self.turned_away.fetch_add(1, Ordering::SeqCst);
    }
}

impl<R: Wait> Serve<R> for Echo {
    fn serve<'p>(
        &self,
        _rt: &'p R,
        _alloc: Global,
        arrival: Arrival<'p, R>,
    ) -> Option<Arrival<'p, R>> {
        // The place is kept until the connection has ended.
        let Visit {
            mut stream,
            place: _place,
        } = arrival.visit;
        let _ = stream.set_read_timeout(Some(Duration::from_millis(IDLE)));
        let _ = stream.set_write_timeout(Some(Duration::from_millis(IDLE)));
        self.served.fetch_add(1, Ordering::SeqCst);
        if stream.write_all(b"+").is_err() {
            return None;
        }
        let mut byte = [0u8; 1];
        for _ in 0..1000u32 {
            match stream.read(&mut byte) {
                Ok(1) => {
                    if stream.write_all(&byte).is_err() {
                        return None;
                    }
                }
                _ => return None,
            }
        }
        None
    }
}

/// Whether a new connection is greeted.
pub(crate) fn greeted(stream: &mut TcpStream) -> bool {
    let mut byte = [0u8; 1];
    match stream.read(&mut byte) {
        Ok(1) => is_same(&byte[0], &b'+'),
        _ => false,
    }
}

/// Both ends of a connection, first the one that connected.
pub(crate) fn connected<R: Net<Listener = TcpListener, Stream = TcpStream>>(
    rt: &R,
) -> Option<(TcpStream, TcpStream)> {
    let Ok(listener) = TcpListener::bind(rt, "127.0.0.1:0") else {
        return None;
    };
    let Ok(address) = listener.local_addr() else {
        return None;
    };
    let Ok(viewer) = TcpStream::connect(rt, address) else {
        return None;
    };
    match listener.accept() {
        Ok((stream, _)) => Some((viewer, stream)),
        Err(_) => None,
    }
}
