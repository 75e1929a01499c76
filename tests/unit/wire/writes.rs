//! A writer that keeps what it was asked to write.

use iiif_io::Outlet;
use std::alloc::Global;
use std::io;
use std::io::Write;

/// A writer that takes at most `piece` bytes a write, of two texts too, and notes of each write how many bytes it was handed.
#[derive(Drop)]
pub struct Writes {
    pub sizes: Vec<usize>,
    piece: usize,
}

impl Writes {
    /// A writer that was handed nothing yet.
    pub(crate) fn new(alloc: Global, piece: usize) -> Writes {
        Writes {
            sizes: Vec::new(alloc),
            piece,
        }
    }

    /// Notes a write, and takes what it takes of it.
    fn note(&mut self, size: usize) -> io::Result<usize> {
        self.sizes.push(size)?;
        Ok(self.piece.min(size))
    }
}

impl Write for Writes {
    fn write(&mut self, bytes: &[u8]) -> io::Result<usize> {
        self.note(bytes.len())
    }

    fn flush(&mut self) -> io::Result<()> {
        Ok(())
    }
}

impl Outlet for Writes {
    ghost fails = { λ _ _. Unit {0} };

    fn put(&mut self, bytes: &[u8]) -> io::Result<usize> {
        self.write(bytes)
    }

    fn put_both(&mut self, first: &[u8], second: &[u8]) -> io::Result<usize> {
        self.note(first.len().wrapping_add(second.len()))
    }
}
