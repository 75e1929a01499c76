//! Where the log goes, which may be read late.

use iiif_io::Outlet;
use std::alloc::Global;
use std::io;
use std::io::Write;
use std::sync::{Condvar, Mutex, Wait};

/// The bytes that a writer was given, and whether somebody reads them.
#[derive(Drop)]
struct Given {
    taken: Vec<u8>,
    is_begun: bool,
    is_read: bool,
}

/// That under its lock, and who waits for a change.
#[derive(Drop)]
pub(crate) struct Pipe {
    given: Mutex<Given>,
    more: Condvar,
}

/// A writer into a pipe, each of whose writes waits until somebody reads it.
#[derive(Drop)]
pub(crate) struct Inflow<'a, R> {
    pub rt: &'a R,
    pub pipe: &'a Pipe,
}

impl<'a, R: Wait> Write for Inflow<'a, R> {
    fn write(&mut self, bytes: &[u8]) -> io::Result<usize> {
        let mut given = self.pipe.given.lock(self.rt);
        given.is_begun = true;
        self.pipe.more.notify_all();
        for _ in self.rt.forever() {
            if given.is_read {
                given.taken.extend_from_slice(bytes)?;
                return Ok(bytes.len());
            }
            given = self.pipe.more.wait(self.rt, given);
        }
        unreachable!()
    }

    fn flush(&mut self) -> io::Result<()> {
        Ok(())
    }
}

impl<'a, R: Wait> Outlet for Inflow<'a, R> {
    ghost fails = { λ _ _. Unit {0} };

    fn put(&mut self, bytes: &[u8]) -> io::Result<usize> {
        self.write(bytes)
    }
}

/// A pipe that somebody reads, or nobody yet.
pub(crate) fn new_pipe(alloc: Global, is_read: bool) -> Pipe {
    Pipe {
        given: Mutex::new(Given {
            taken: Vec::new(alloc),
            is_begun: false,
            is_read,
        }),
        more: Condvar::new(),
    }
}

/// Waits until something is being written.
pub(crate) fn wait_for_line<R: Wait>(rt: &R, pipe: &Pipe) {
    let mut given = pipe.given.lock(rt);
    for _ in rt.forever() {
        if given.is_begun {
            return;
        }
        given = pipe.more.wait(rt, given);
    }
}

/// From now on somebody reads it.
pub(crate) fn read_from_now<R: Wait>(rt: &R, pipe: &Pipe) {
    pipe.given.lock(rt).is_read = true;
    pipe.more.notify_all();
}

/// The bytes that it was given.
pub(crate) fn given_to(pipe: Pipe) -> Vec<u8> {
    let Pipe { given, .. } = pipe;
    let Given { taken, .. } = given.into_inner();
    taken
}
