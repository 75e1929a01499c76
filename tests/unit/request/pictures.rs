//! Gray pictures that are held whole, and requests on them that are planned.

use crate::fixtures::files::STEPS;
use crate::fixtures::rasters::is_scalable;
use iiif_area::{Sums, meets};
use iiif_assemble::{Items, Job, Opened};
use iiif_canonical::Resolved;
use iiif_delivery::Admission;
use iiif_keys::{Fault, Name, Shape, SumKey, SumVal, TileKey, TileVal, is_name};
use iiif_pixel::{Dim, Kind, Quality, Raster, Rect, Samples, Turn};
use std::alloc::Global;
use std::sync::Arc;
use std::sync::atomic::{AtomicU64, Ordering};
use std::time::Duration;

/// Which items of a picture fail. Of tiles two do, of which the second fails otherwise: of four, in a row they are asked for in one turn
/// of two workers.
#[derive(Clone, Copy)]
pub enum Failing {
    Nothing,
    SecondColumn,
    FirstRow,
    /// All tiles, which aren't to be asked for, and the blocks in this row.
    Blocks(Option<u32>),
    /// The block that is asked for as this one in time, from 0 on. Asked for again it doesn't fail.
    Once(u64),
    /// None, but the turn of a job that waits for blocks doesn't come.
    Turn,
}

impl Failing {
    /// The fault of a tile, if it fails.
    fn of_tile(self, key: &TileKey) -> Option<Fault> {
        let is_first = match self {
            Failing::SecondColumn if key.tx == 1 => key.ty == 0,
            Failing::FirstRow if key.ty == 0 => key.tx == 0,
            Failing::Blocks(_) => true,
            _ => return None,
        };
        Some(if is_first {
            Fault::BadKey
        } else {
            Fault::UnknownName
        })
    }

    /// Whether a block fails that so many were asked for before.
    fn has_block(self, key: &SumKey, before: u64) -> bool {
        match self {
            Failing::Blocks(row) => row == Some(key.by),
            Failing::Once(place) => place == before,
            _ => false,
        }
    }
}

/// A picture that is held whole, of which each value is made anew, but for the items that fail. A worker counts what it asks for.
#[derive(Drop)]
pub struct Shown {
    raster: Raster,
    pub shape: Shape,
    fails: Failing,
    /// How many blocks were asked for.
    asks: AtomicU64,
    /// How many turns were queued for and not yet given back.
    pub queued: AtomicU64,
    /// How many turns were queued for.
    pub turns: AtomicU64,
    /// The work of all jobs that were enqueued.
    pub work: AtomicU64,
    /// How many blocks were asked for while no job was in the queue.
    pub unqueued: AtomicU64,
    alloc: Global,
}

impl<R> Items<TileKey, TileVal, u64, R> for Shown {
    type Open = ();

    ghost fits = { λ s k. TileFitsIn s.shape.dim (channels_of s.shape.kind) k };

    ghost means = { λ s k v. TileHasShape s.shape k v };

    ghost failed = { λ s k f. Unit {0} };

    ghost rank = { λ s k. 0 };

    ghost is_open = { λ s o k parts. Unit {0} };

    ghost asked = { λ s old new. Unit {0} };

    fn open(
        &self,
        _rt: &R,
        pass: &mut u64,
        key: &TileKey,
    ) -> Result<Opened<TileKey, TileVal, ()>, Fault> {
        *pass = pass.wrapping_add(1);
        if let Some(fault) = self.fails.of_tile(key) {
            return Err(fault);
        }
        let at = key.rect_in(self.shape.dim);
        let raster = self.raster.crop(at)?;
        match Arc::new(self.alloc, TileVal { raster }) {
            Ok(value) => Ok(Opened::Known(value)),
            Err(_) => Err(Fault::NoMemory),
        }
    }

    /// None has parts.
    fn close(
        &self,
        _rt: &R,
        _load: (),
        key: &TileKey,
        parts: Vec<TileKey>,
        values: Result<Vec<Arc<TileVal>>, Fault>,
    ) -> Result<Arc<TileVal>, Fault> {
        drop(parts);
        match values {
            Ok(_) => Err(Fault::NoMemory),
            Err(fault) => Err(fault),
        }
    }

    fn is_cached(&self, _rt: &R, _key: &TileKey) -> bool {
        false
    }
}

impl<R> Items<SumKey, SumVal, u64, R> for Shown {
    type Open = ();

    ghost fits = { λ s k. SumFitsIn s.shape.dim (channels_of s.shape.kind) k };

    ghost means = { λ s k v. SumHasShape s.shape k v };

    ghost failed = { λ s k f. Unit {0} };

    ghost rank = { λ s k. 0 };

    ghost is_open = { λ s o k parts. Unit {0} };

    ghost asked = { λ s old new. Unit {0} };

    fn open(
        &self,
        _rt: &R,
        pass: &mut u64,
        key: &SumKey,
    ) -> Result<Opened<SumKey, SumVal, ()>, Fault> {
        *pass = pass.wrapping_add(1);
        let before = self.asks.fetch_add(1, Ordering::SeqCst);
        if self.queued.load(Ordering::SeqCst) == 0 {
            self.unqueued.fetch_add(1, Ordering::SeqCst);
        }
        if self.fails.has_block(key, before) {
            return Err(Fault::UnknownName);
        }
        let at = key.block_in(self.shape.dim);
        if !meets(at, key.rect) || !is_scalable(key.rect.dim(), key.size) {
            return Err(Fault::BadKey);
        }
        let raster = self.raster.crop(at)?;
        let sums = Sums::of_tile(self.alloc, &raster, at, key.rect, key.size)?;
        match Arc::new(self.alloc, SumVal { sums }) {
            Ok(value) => Ok(Opened::Known(value)),
            Err(_) => Err(Fault::NoMemory),
        }
    }

    /// None has parts.
    fn close(
        &self,
        _rt: &R,
        _load: (),
        key: &SumKey,
        parts: Vec<SumKey>,
        values: Result<Vec<Arc<SumVal>>, Fault>,
    ) -> Result<Arc<SumVal>, Fault> {
        drop(parts);
        match values {
            Ok(_) => Err(Fault::NoMemory),
            Err(fault) => Err(fault),
        }
    }

    fn is_cached(&self, _rt: &R, _key: &SumKey) -> bool {
        false
    }
}

/// A job in the queue of a picture.
pub struct Queued {
    work: u64,
}

/// Each job is admitted at once, or none is.
impl<R> Admission<R> for Shown {
    type Queued = Queued;

    ghost work_of = { λ _ job. job.work };

    fn enqueue(&self, _rt: &R, work: u64) -> Queued {
        self.queued.fetch_add(1, Ordering::SeqCst);
        self.turns.fetch_add(1, Ordering::SeqCst);
        self.work.fetch_add(work, Ordering::SeqCst);
        Queued { work }
    }

    fn wait(&self, _rt: &R, _job: &Queued, _limit: Duration) -> bool {
        !matches!(self.fails, Failing::Turn)
    }

    fn release(&self, _rt: &R, job: Queued) {
        let Queued { work: _work } = job;
        self.queued.fetch_sub(1, Ordering::SeqCst);
    }
}

/// How many samples there are.
fn len_of(samples: &Samples) -> usize {
    match samples {
        Samples::Eight(samples) => samples.len(),
        Samples::Sixteen(samples) => samples.len(),
    }
}

/// The picture with these sides and samples; none where there aren't as many samples as places.
pub(crate) fn of_samples(
    alloc: Global,
    dim: Dim,
    samples: Samples,
    fails: Failing,
) -> Option<Shown> {
    match Kind::Gray.count(dim) {
        Some(count) if count == len_of(&samples) => {
            let raster = Raster::from_samples(dim, Kind::Gray, samples);
            let shape = Shape {
                dim: raster.dim(),
                kind: raster.kind(),
                depth: raster.depth(),
            };
            Some(Shown {
                raster,
                shape,
                fails,
                asks: AtomicU64::new(0),
                queued: AtomicU64::new(0),
                turns: AtomicU64::new(0),
                work: AtomicU64::new(0),
                unqueued: AtomicU64::new(0),
                alloc,
            })
        }
        _ => None,
    }
}

/// The picture of 4 by 4 places with those samples.
pub(crate) fn tens(alloc: Global, fails: Failing) -> Option<Shown> {
    match Vec::from_slice(alloc, &STEPS) {
        Ok(samples) => of_samples(alloc, Dim { w: 4, h: 4 }, Samples::Eight(samples), fails),
        Err(_) => None,
    }
}

/// The name `a`.
pub(crate) fn named(alloc: Global) -> Option<Name> {
    match String::from_str(alloc, "a") {
        Ok(text) if is_name(text.as_str()) => Name::new(text).ok(),
        _ => None,
    }
}

/// A quarter clockwise.
pub const QUARTER: Turn = Turn {
    mirror: false,
    quarters: 1,
};

/// No turn.
pub const UPRIGHT: Turn = Turn {
    mirror: false,
    quarters: 0,
};

/// The greatest room for a block's sums.
pub const ROOM: u64 = 65_536;

/// A resolved request: the whole of a picture with these sides, scaled and turned.
fn whole(dim: Dim, size: Dim, turn: Turn) -> Resolved {
    Resolved {
        rect: Rect {
            x: 0,
            y: 0,
            w: dim.w,
            h: dim.h,
        },
        size,
        turn,
        quality: Quality::Default,
    }
}

/// The whole of a picture of this shape, scaled and turned, of tiles with this edge and blocks with such room; none where a condition
/// isn't met.
pub(crate) fn job(
    alloc: Global,
    shape: Shape,
    edge: u32,
    size: Dim,
    turn: Turn,
    room: u64,
) -> Option<Job> {
    let resolved = whole(shape.dim, size, turn);
    let rect = resolved.rect;
    let limits = 0 < edge && edge <= 1024 && resolved.turn.quarters < 4 && room <= ROOM;
    if !(limits && rect.lies_in(shape.dim) && is_scalable(rect.dim(), resolved.size)) {
        return None;
    }
    let Some(name) = named(alloc) else {
        return None;
    };
    match Job::new(alloc, name, edge, shape, resolved, room) {
        Ok(job) => Some(job),
        Err(_) => None,
    }
}
