//! Pictures as rasters and as files.

use crate::server::plain::Plain;
use iiif_pixel::{Depth, Dim, Kind, Raster, Samples, Span};
use iiif_tiff_write::{OutKind, fits, head, put_rows};
use std::alloc::Global;

/// A picture: its sides, its channels, its samples row by row, and the kind of its file.
#[derive(Clone, Copy)]
pub(crate) struct Drawn<'a> {
    pub sides: [u32; 2],
    pub kind: Kind,
    pub out: OutKind,
    pub samples: &'a [u16],
}

/// The picture of the sample.
pub(crate) const STEPS: Drawn<'static> = Drawn {
    sides: [4, 4],
    kind: Kind::Gray,
    out: OutKind::Gray,
    samples: &[
        0, 10, 20, 30, 40, 50, 60, 70, 80, 90, 100, 110, 120, 130, 140, 150,
    ],
};

/// How many samples there are.
fn count(samples: Span) -> usize {
    match samples {
        Span::Eight(samples) => samples.len(),
        Span::Sixteen(samples) => samples.len(),
    }
}

impl<'a> Drawn<'a> {
    /// The picture for the plain evaluation.
    pub(crate) fn plain(&self) -> Plain<'a> {
        let [w, h] = self.sides;
        Plain {
            w: u64::from(w),
            h: u64::from(h),
            channels: self.kind.channels() as u64,
            top: u64::from(self.out.depth().top()),
            samples: self.samples,
        }
    }

    /// Its samples of 8 bits, or of 16.
    fn samples(&self, alloc: Global) -> Option<Samples> {
        if self.out.depth() == Depth::Sixteen {
            return Some(Samples::Sixteen(Vec::from_slice(alloc, self.samples).ok()?));
        }
        let mut bytes = Vec::new(alloc);
        for sample in self.samples {
            bytes.push((*sample & 0xff) as u8).ok()?;
        }
        Some(Samples::Eight(bytes))
    }

    /// The raster.
    pub(crate) fn raster(&self, alloc: Global) -> Option<Raster> {
        let samples = self.samples(alloc)?;
        let [w, h] = self.sides;
        let dim = Dim { w, h };
        if self.kind.count(dim)? != count(samples.as_span()) {
            return None;
        }
        Some(Raster::from_samples(dim, self.kind, samples))
    }

    /// Its file.
    pub(crate) fn file(&self, alloc: Global) -> Option<Vec<u8>> {
        let (kind, raster) = (self.out, self.raster(alloc)?);
        if !fits(kind, raster.dim())
            || raster.kind().channels() != usize::from(kind.samples_per_pixel())
            || raster.depth() != kind.depth()
        {
            return None;
        }
        let mut bytes = Vec::from_slice(alloc, head(kind, raster.dim()).as_slice()).ok()?;
        put_rows(&raster, kind, &mut bytes).ok()?;
        Some(bytes)
    }
}
