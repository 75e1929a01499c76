//! Connections in memory.

use iiif_io::Outlet;
use iiif_io::fakes::{FailingReader, FailingWriter};
use iiif_peer_link::Exchange;
use std::io;
use std::io::Write;

/// A connection in memory: the writer for an ask, and what the reply is read from, whatever was asked.
#[derive(Drop)]
pub(crate) struct Ends<'a, 'b> {
    pub(crate) out: &'a mut FailingWriter,
    pub(crate) reader: FailingReader<'b>,
}

impl<'a, 'b> Write for Ends<'a, 'b> {
    fn write(&mut self, bytes: &[u8]) -> io::Result<usize> {
        self.out.write(bytes)
    }

    fn flush(&mut self) -> io::Result<()> {
        self.out.flush()
    }
}

impl<'a, 'b> Outlet for Ends<'a, 'b> {
    ghost fails = { λ _ _. Unit {0} };

    fn put(&mut self, bytes: &[u8]) -> io::Result<usize> {
        self.write(bytes)
    }
}

impl<'a, 'b> Exchange<FailingReader<'b>> for Ends<'a, 'b> {
    ghost turned = { λ _ _. Unit {0} };

    fn turn(self) -> FailingReader<'b> {
        let Ends { out: _, reader } = self;
        reader
    }
}
