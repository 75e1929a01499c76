//! Images by hand, in bands and by several workers.

use crate::fixtures::{has_start, is_missing, is_same, is_unwanted};
use crate::request::pictures::{Failing, QUARTER, ROOM, Shown, UPRIGHT, job, of_samples, tens};
use iiif_assemble::{ImageRef, ItemGroups, Job, assemble, assemble_band};
use iiif_planner::{Band, bands};
use iiif_keys::Fault;
use iiif_pixel::{Depth, Dim, Raster, Samples, Span, Turn};
use iiif_witnesses::{Flags, gather_flagged};
use std::alloc::{AllocError, Global};
use std::sync::Wait;
use std::thread::Threads;

/// The samples of a raster of 8 bits; none of another.
fn bytes(raster: &Raster) -> &[u8] {
    match raster.samples() {
        Span::Eight(samples) => samples,
        Span::Sixteen(_) => &[],
    }
}

/// A raster, and how many samples and sums were held at once for it.
type Made = (Raster, u64);

/// The image that a job's plan is of.
fn image_of(job: &Job) -> ImageRef<'_> {
    ImageRef {
        name: &job.name,
        edge: job.edge,
        shape: job.shape,
    }
}

/// The image of a job, by so many workers.
fn image<R: Threads + Wait + Sync>(
    rt: &R,
    alloc: Global,
    shown: &Shown,
    job: &Job,
    workers: usize,
) -> Result<Made, Fault> {
    let mut passes = vec![in alloc; 0u64; workers.max(1)]?;
    let groups = ItemGroups {
        tiles: shown,
        sums: shown,
    };
    let (resolved, plan, image) = (&job.resolved, &job.plan, image_of(job));
    let mut held = 0u64;
    match assemble(rt, alloc, &groups, &mut passes, resolved, plan, &image, &mut held) {
        Ok(raster) => Ok((raster, held)),
        Err(fault) => Err(fault),
    }
}

/// A wanted image, or its fault.
#[derive(Clone, Copy)]
enum Wanted {
    /// It has 8 bits, and its first samples are these.
    Begins(&'static [u8]),
    /// Its samples are these.
    All(Span<'static>),
    Fault(Fault),
}

/// Whether a raster has the samples that it is to have.
fn is_wanted(raster: &Raster, wanted: Wanted) -> bool {
    match wanted {
        Wanted::Begins(first) => has_start(bytes(raster), first),
        Wanted::All(samples) => is_same(&raster.samples(), &samples),
        Wanted::Fault(fault) => is_same(&None, &Some(fault)),
    }
}

/// Whether the image of a job, by so many workers, or its fault is what it is to be.
fn is_made<R: Threads + Wait + Sync>(
    rt: &R,
    alloc: Global,
    shown: &Shown,
    job: &Job,
    workers: usize,
    wanted: Wanted,
) -> bool {
    match (image(rt, alloc, shown, job, workers), wanted) {
        (Ok(made), _) => is_wanted(&made.0, wanted),
        (Err(fault), Wanted::Fault(other)) => is_same(&fault, &other),
        (Err(fault), _) => is_unwanted(&fault),
    }
}

/// A picture of 4 by 4 places.
#[derive(Clone, Copy)]
enum Sample {
    /// Of 8 bits: 0, 10, 20 and so on up to 150.
    Tens(Failing),
    /// Of 16 bits: 0, 4,001, 8,002 and so on up to 60,015.
    Deep,
}

static DEEP: [u16; 16] = [
    0, 4_001, 8_002, 12_003, 16_004, 20_005, 24_006, 28_007, 32_008, 36_009, 40_010, 44_011,
    48_012, 52_013, 56_014, 60_015,
];

/// The picture of 16 bits.
fn deep(alloc: Global) -> Option<Shown> {
    match Vec::from_slice(alloc, &DEEP) {
        Ok(samples) => {
            let samples = Samples::Sixteen(samples);
            of_samples(alloc, Dim { w: 4, h: 4 }, samples, Failing::Nothing)
        }
        Err(_) => None,
    }
}

/// The picture that is shown.
fn picture(alloc: Global, sample: Sample) -> Option<Shown> {
    match sample {
        Sample::Tens(fails) => tens(alloc, fails),
        Sample::Deep => deep(alloc),
    }
}

/// A picture, the edge of its tiles, the sides it is scaled to, its turn, and what is wanted.
type Case = (Sample, u32, Dim, Turn, Wanted);

/// The picture of 8 bits turned by a quarter, halved and doubled. The averages of four: 0, 10, 40 and 50 come to 25. Where it is doubled,
/// each place is there four times. That of 16 bits turned by a quarter and halved: 0, 4,001, 16,004 and 20,005 come to 10,002.5, and a half
/// goes up. And the fault of the first item.
static IMAGES: [Case; 7] = [
    (
        Sample::Tens(Failing::Nothing),
        1,
        Dim { w: 4, h: 4 },
        QUARTER,
        Wanted::Begins(&[120, 80, 40, 0, 130, 90, 50, 10, 140, 100, 60, 20]),
    ),
    (
        Sample::Tens(Failing::Nothing),
        1,
        Dim { w: 2, h: 2 },
        UPRIGHT,
        Wanted::All(Span::Eight(&[25, 45, 105, 125])),
    ),
    (
        Sample::Tens(Failing::Nothing),
        1,
        Dim { w: 8, h: 8 },
        UPRIGHT,
        Wanted::Begins(&[
            0, 0, 10, 10, 20, 20, 30, 30, 0, 0, 10, 10, 20, 20, 30, 30, 40,
        ]),
    ),
    (
        Sample::Deep,
        2,
        Dim { w: 4, h: 4 },
        QUARTER,
        Wanted::All(Span::Sixteen(&[
            48_012, 32_008, 16_004, 0, 52_013, 36_009, 20_005, 4_001, 56_014, 40_010, 24_006,
            8_002, 60_015, 44_011, 28_007, 12_003,
        ])),
    ),
    (
        Sample::Deep,
        1,
        Dim { w: 2, h: 2 },
        UPRIGHT,
        Wanted::All(Span::Sixteen(&[10_003, 18_005, 42_011, 50_013])),
    ),
    (
        Sample::Tens(Failing::SecondColumn),
        2,
        Dim { w: 4, h: 4 },
        UPRIGHT,
        Wanted::Fault(Fault::BadKey),
    ),
    (
        Sample::Tens(Failing::FirstRow),
        2,
        Dim { w: 4, h: 4 },
        UPRIGHT,
        Wanted::Fault(Fault::BadKey),
    ),
];

/// Whether one, two and five workers make of a job what they are to make.
fn are_alike<R: Threads + Wait + Sync>(
    rt: &R,
    alloc: Global,
    shown: &Shown,
    job: &Job,
    wanted: Wanted,
) -> bool {
    for workers in [1, 2, 5] {
        if !is_made(rt, alloc, shown, job, workers, wanted) {
            return false;
        }
    }
    true
}

/// Whether they make of what is shown what is wanted.
fn are_made<R: Threads + Wait + Sync>(rt: &R, alloc: Global, shown: &Shown, case: &Case) -> bool {
    match job(alloc, shown.shape, case.1, case.2, case.3, ROOM) {
        Some(job) => are_alike(rt, alloc, shown, &job, case.4),
        None => is_missing(),
    }
}

/// Whether the image of a case is made as it is wanted.
fn is_right<R: Threads + Wait + Sync>(rt: &R, alloc: Global, case: &Case) -> bool {
    match picture(alloc, case.0) {
        Some(shown) => are_made(rt, alloc, &shown, case),
        None => is_missing(),
    }
}

#[test]
fn any_number_of_workers_makes_one_image(rt: HostRuntime) {
    for (k, case) in IMAGES.iter().enumerate() {
        assert!(rt; is_right(&rt, rt.alloc(), case), "image {k}");
    }
}

/// Of the items 3, 0, 2 and 1 the last two can't be had, and a fault has the place of its item.
fn is_first_told<R: Threads + Wait + Sync>(rt: &R, alloc: Global, workers: usize) -> bool {
    let flags = Flags {
        alloc,
        bad: &[false, true, true, false],
    };
    let Ok(mut passes) = vec![in alloc; (); workers.max(1)] else {
        return false;
    };
    match gather_flagged(rt, &flags, &mut passes, &[3, 2, 1, 0], &[0, 3, 1, 2]) {
        Err(Fault::Source(fault)) => is_same(&fault.place, &2),
        Err(fault) => is_unwanted(&fault),
        Ok(_) => is_missing(),
    }
}

#[test]
fn first_item_that_cannot_be_had_is_told_by_any_number_of_workers(rt: HostRuntime) {
    for workers in 1..6 {
        assert!(rt; is_first_told(&rt, rt.alloc(), workers), "{workers} workers");
    }
}

/// The rows of the picture of 8 bits that is turned by a quarter.
static ROWS: [[u8; 4]; 4] = [
    [120, 80, 40, 0],
    [130, 90, 50, 10],
    [140, 100, 60, 20],
    [150, 110, 70, 30],
];

/// A band of a job's image, by one worker.
fn rows<R: Threads + Wait + Sync>(
    rt: &R,
    alloc: Global,
    shown: &Shown,
    job: &Job,
    band: &Band,
) -> Result<Made, Fault> {
    let mut passes = vec![in alloc; 0u64; 1]?;
    let groups = ItemGroups {
        tiles: shown,
        sums: shown,
    };
    let (resolved, plan, image) = (&job.resolved, &job.plan, image_of(job));
    let mut held = 0u64;
    match assemble_band(rt, alloc, &groups, &mut passes, resolved, plan, &image, band, &mut held) {
        Ok(raster) => Ok((raster, held)),
        Err(fault) => Err(fault),
    }
}

/// Whether a band of a job's image is this row, of two of the four tiles, and 4 to 8 samples were held for it.
fn is_row<R: Threads + Wait + Sync>(
    rt: &R,
    alloc: Global,
    shown: &Shown,
    job: &Job,
    band: &Band,
    row: &[u8],
) -> bool {
    match rows(rt, alloc, shown, job, band) {
        Ok(made) => {
            let (raster, held) = made;
            let is_held = 4 <= held && held <= 8;
            is_held && is_same(&band.items.len(), &2) && is_same(&bytes(&raster), &row)
        }
        Err(fault) => is_unwanted(&fault),
    }
}

/// Whether the bands of a row of a job's image are those rows.
fn are_rows<R: Threads + Wait + Sync>(rt: &R, alloc: Global, shown: &Shown, job: &Job) -> bool {
    let Ok(bands) = bands(alloc, &job.resolved, &job.plan, 1) else {
        return false;
    };
    for (band, row) in bands.iter().zip(&ROWS) {
        if !is_row(rt, alloc, shown, job, band, row) {
            return false;
        }
    }
    is_same(&bands.len(), &ROWS.len())
}

/// Whether the picture of 8 bits that is turned by a quarter, of tiles with edge 2, has those rows as its bands.
fn is_turned<R: Threads + Wait + Sync>(rt: &R, alloc: Global) -> bool {
    let Some(shown) = tens(alloc, Failing::Nothing) else {
        return false;
    };
    match job(alloc, shown.shape, 2, shown.shape.dim, QUARTER, ROOM) {
        Some(job) => are_rows(rt, alloc, &shown, &job),
        None => is_missing(),
    }
}

#[test]
fn quarter_turn_in_bands_of_a_row(rt: HostRuntime) {
    assert!(rt; is_turned(&rt, rt.alloc()));
}

/// More sums than the calling thread rounds alone.
const MANY: Dim = Dim { w: 1_024, h: 1_026 };

/// How many places a picture twice as wide has.
const COUNT: usize = 2_048 * 1_026;

/// So many samples of 8 bits: the remainders of their places by 251.
fn remainders(alloc: Global) -> Result<Samples, AllocError> {
    let mut samples = Vec::new(alloc);
    for i in 0..COUNT {
        samples.push((i % 251) as u8)?;
    }
    Ok(Samples::Eight(samples))
}

/// And of 16 bits, 257 times as much.
fn deep_remainders(alloc: Global) -> Result<Samples, AllocError> {
    let mut samples = Vec::new(alloc);
    for i in 0..COUNT {
        samples.push((i % 251) as u16 * 257)?;
    }
    Ok(Samples::Sixteen(samples))
}

/// A gray picture twice as wide as `MANY`, of remainders.
fn wide(alloc: Global, depth: Depth) -> Option<Shown> {
    let samples = match depth {
        Depth::Eight => remainders(alloc).ok()?,
        Depth::Sixteen => deep_remainders(alloc).ok()?,
    };
    let dim = Dim { w: 2_048, h: 1_026 };
    of_samples(alloc, dim, samples, Failing::Nothing)
}

/// Twice the mean of the two remainders that place `i` of the halved picture is made of.
fn twice_the_mean(i: usize) -> usize {
    let first = i % 251 * 2;
    first % 251 + (first + 1) % 251
}

/// Whether these are the samples of the halved picture: a half goes up.
fn are_means(samples: Span) -> bool {
    match samples {
        Span::Eight(samples) => {
            for (i, sample) in samples.iter().enumerate() {
                if usize::from(*sample) != (twice_the_mean(i) + 1) / 2 {
                    return false;
                }
            }
        }
        Span::Sixteen(samples) => {
            for (i, sample) in samples.iter().enumerate() {
                if usize::from(*sample) != (257 * twice_the_mean(i) + 1) / 2 {
                    return false;
                }
            }
        }
    }
    true
}

/// Whether the wide picture, halved by so many workers, has the sides and the samples that it is to have.
fn is_halved<R: Threads + Wait + Sync>(
    rt: &R,
    alloc: Global,
    shown: &Shown,
    workers: usize,
) -> bool {
    let Some(job) = job(alloc, shown.shape, 1_024, MANY, UPRIGHT, ROOM) else {
        return false;
    };
    match image(rt, alloc, shown, &job, workers) {
        Ok(made) => is_same(&made.0.dim(), &MANY) && are_means(made.0.samples()),
        Err(fault) => is_unwanted(&fault),
    }
}

#[test]
fn many_sums_are_rounded_by_several_threads(rt: HostRuntime) {
    for (depth, workers) in [(Depth::Eight, 2), (Depth::Sixteen, 1)] {
        let right = match wide(rt.alloc(), depth) {
            Some(shown) => is_halved(&rt, rt.alloc(), &shown, workers),
            None => is_missing(),
        };
        assert!(rt; right, "{workers} workers");
    }
}
