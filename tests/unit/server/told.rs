//! A reader of a connection's input, and a watch that counts its answers.

use crate::server::cases::Input;
use iiif_http_front::Call;
use iiif_io::Inlet;
use iiif_io::fakes::FailingReader;
use iiif_server::{Cut, Sent, Watch};
use std::io;
use std::io::Read;
use std::sync::atomic::{AtomicU64, Ordering};

/// A reader that gives what comes, and then what is behind it.
#[derive(Drop)]
pub(crate) struct Parts<'a> {
    now: FailingReader<'a>,
    second: &'a [u8],
}

impl<'a> Parts<'a> {
    /// The reader of an input.
    pub(crate) fn of(input: Input<'a>) -> Parts<'a> {
        Parts {
            now: FailingReader {
                left: input.first,
                piece: input.piece,
                reads: input.reads,
            },
            second: input.second,
        }
    }
}

impl<'a> Read for Parts<'a> {
    fn read(&mut self, buffer: &mut [u8]) -> io::Result<usize> {
        if self.now.left.is_empty() {
            self.now.left = self.second;
            self.second = b"";
        }
        self.now.read(buffer)
    }
}

impl<'a> Inlet for Parts<'a> {
    ghost fails = { λ _ _. Unit {0} };

    fn pull(&mut self, buffer: &mut [u8]) -> io::Result<usize> {
        self.read(buffer)
    }
}

/// The counts so far.
#[derive(Drop)]
pub(crate) struct Told {
    begun: AtomicU64,
    whole: AtomicU64,
    cut: AtomicU64,
    calls: AtomicU64,
    bytes: AtomicU64,
    statuses: AtomicU64,
}

impl Told {
    /// Nothing yet.
    pub(crate) fn new() -> Told {
        Told {
            begun: AtomicU64::new(0),
            whole: AtomicU64::new(0),
            cut: AtomicU64::new(0),
            calls: AtomicU64::new(0),
            bytes: AtomicU64::new(0),
            statuses: AtomicU64::new(0),
        }
    }

    /// How many answers were begun, sent whole and cut off, how many had a call, and the sums of their bytes and of their statuses.
    pub(crate) fn counts(&self) -> [u64; 6] {
        [
            self.begun.load(Ordering::SeqCst),
            self.whole.load(Ordering::SeqCst),
            self.cut.load(Ordering::SeqCst),
            self.calls.load(Ordering::SeqCst),
            self.bytes.load(Ordering::SeqCst),
            self.statuses.load(Ordering::SeqCst),
        ]
    }
}

impl<R> Watch<R> for Told {
    type Begun = u64;

    fn begin(&self, _rt: &R) -> u64 {
        self.begun.fetch_add(1, Ordering::SeqCst)
    }

    fn report(&self, _rt: &R, _begun: u64, call: Option<&Call>, outcome: &Result<Sent, Cut>) {
        if call.is_some() {
            self.calls.fetch_add(1, Ordering::SeqCst);
        }
        match outcome {
            Ok(sent) => {
                self.whole.fetch_add(1, Ordering::SeqCst);
                self.bytes.fetch_add(sent.bytes, Ordering::SeqCst);
                self.statuses
                    .fetch_add(u64::from(sent.status), Ordering::SeqCst);
            }
            Err(cut) => {
                self.cut.fetch_add(1, Ordering::SeqCst);
                self.bytes.fetch_add(cut.sent, Ordering::SeqCst);
            }
        }
    }
}
