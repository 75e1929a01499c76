//! Images that are made of blocks, sent by several workers; and one that is a tile as it stands.

use crate::fixtures::files::{STEPS, TURNED};
use crate::fixtures::{is_missing, is_same};
use crate::request::pictures::{Failing, QUARTER, Shown, UPRIGHT, job, of_samples, tens};
use iiif_assemble::{Job, RenderContext};
use iiif_delivery::{Delivered, Sending, Stopped, send_image};
use iiif_io::Outlet;
use iiif_keys::Fault;
use iiif_pixel::{Depth, Dim, Kind, Quality, Samples, Turn};
use iiif_tiff_write::{OutKind, fits};
use std::alloc::{AllocError, Global};
use std::io;
use std::io::{ErrorKind, Write};
use std::sync::Wait;
use std::sync::atomic::{AtomicU64, Ordering};
use std::thread::Threads;

/// The samples 0 to 199, twice.
fn samples(alloc: Global) -> Result<Vec<u8>, AllocError> {
    let mut samples = Vec::new(alloc);
    for _ in 0..2 {
        for sample in 0..200u8 {
            samples.push(sample)?;
        }
    }
    Ok(samples)
}

/// The gray picture of 20 by 20 places with those samples, of which blocks may fail, and no tile is asked for.
fn sample(alloc: Global, fails: Failing) -> Option<Shown> {
    let samples = samples(alloc).ok()?;
    let dim = Dim { w: 20, h: 20 };
    of_samples(alloc, dim, Samples::Eight(samples), fails)
}

/// The bytes of an image that was sent whole, how many samples and sums were held at most, how many were kept beside these, and how many
/// bytes were buffered at most; else the bytes before its end, and the fault of a band that could not be made. Without one the writer
/// failed.
type End = Result<[u64; 4], (u64, Option<Fault>)>;

/// The end of an image, in a form that can be printed.
fn end_of(end: Result<Delivered, Stopped>) -> End {
    match end {
        Ok(sent) => Ok([sent.bytes, sent.held, sent.kept, sent.buffered]),
        Err(Stopped::Writer(count)) => Err((count, None)),
        Err(Stopped::Load(count, fault)) => Err((count, Some(fault))),
    }
}

/// How an image was sent.
#[derive(Drop)]
struct Answer {
    end: End,
    bytes: Vec<u8>,
    /// How many blocks or tiles were asked for.
    asks: u64,
}

/// How an image is sent in bands of one row by so many workers, and how many blocks or tiles were asked for.
fn send_to<R: Threads + Wait + Sync, W: Outlet>(
    rt: &R,
    alloc: Global,
    shown: &Shown,
    job: &Job,
    workers: usize,
    out: &mut W,
) -> Option<(End, u64)> {
    let dim = job.resolved.size.turned(job.resolved.turn);
    let (Kind::Gray, Depth::Eight, Quality::Default) = (
        job.shape.kind,
        job.shape.depth,
        job.resolved.quality,
    ) else {
        return None;
    };
    if !fits(OutKind::Gray, dim) {
        return None;
    }
    let mut passes = vec![in alloc; 0u64; workers.max(1)].ok()?;
    let context = RenderContext {
        rt,
        alloc,
        tiles: shown,
        sums: shown,
    };
    let sending = Sending {
        job,
        rows: 1,
        kind: OutKind::Gray,
        start: b"",
    };
    let end = end_of(send_image(&context, &mut passes, &sending, out));
    let mut asks = 0u64;
    for pass in &passes {
        asks = asks.wrapping_add(*pass);
    }
    Some((end, asks))
}

/// An image that is sent so, to memory.
fn send<R: Threads + Wait + Sync>(
    rt: &R,
    alloc: Global,
    shown: &Shown,
    job: &Job,
    workers: usize,
) -> Option<Answer> {
    let mut bytes = Vec::new(alloc);
    match send_to(rt, alloc, shown, job, workers, &mut bytes) {
        Some((end, asks)) => Some(Answer { end, bytes, asks }),
        None => None,
    }
}

/// A picture scaled to 7 by 7, sent of blocks with a side of 2 by so many workers.
fn scaled<R: Threads + Wait + Sync>(
    rt: &R,
    alloc: Global,
    shown: &Shown,
    workers: usize,
) -> Option<Answer> {
    match job(alloc, shown.shape, 2, Dim { w: 7, h: 7 }, UPRIGHT, 1) {
        Some(job) => send(rt, alloc, shown, &job, workers),
        None => None,
    }
}

/// The picture, of which these blocks fail, sent so.
fn sent<R: Threads + Wait + Sync>(
    rt: &R,
    alloc: Global,
    fails: Failing,
    workers: usize,
) -> Option<Answer> {
    match sample(alloc, fails) {
        Some(shown) => scaled(rt, alloc, &shown, workers),
        None => None,
    }
}

/// The length of a file of 7 rows of 7 bytes, and of what stands before them.
const LEN: u64 = 174 + 49;

/// How many sums are kept at most. The columns of blocks have 1, 2, 2, 1, 2, 2, 1, 2, 2 and 1 columns of the result, 16 in all, and so
/// it is with rows. The third and the fifth row of the result have a place in blocks of 5 rows, and no row has in more.
const KEPT: u64 = 16 * 5;

/// Whether so many workers send what one sends, and ask for each block once. There are 100 blocks, in rows of 10, and a band has a place in
/// three rows at most.
fn is_same_answer<R: Threads + Wait + Sync>(
    rt: &R,
    alloc: Global,
    alone: &Answer,
    workers: usize,
) -> bool {
    match sent(rt, alloc, Failing::Blocks(None), workers) {
        Some(answer) => is_same(&answer.bytes, &alone.bytes) && is_same(&answer.asks, &100),
        None => is_missing(),
    }
}

/// Whether the bands above this one are sent, where this row of blocks fails.
fn ends_above<R: Threads + Wait + Sync>(
    rt: &R,
    alloc: Global,
    whole: &Answer,
    (row, band): (u32, u64),
    workers: usize,
) -> bool {
    let count = match band {
        1..=7 => 174 + 7 * band,
        _ => 0,
    };
    match sent(rt, alloc, Failing::Blocks(Some(row)), workers) {
        Some(answer) => {
            is_same(&answer.end, &Err((count, Some(Fault::UnknownName))))
                && is_same(&(answer.bytes.len() as u64), &count)
                && whole.bytes.as_slice().starts_with(&answer.bytes)
        }
        None => is_missing(),
    }
}

/// Whether several workers send what one sends.
fn are_same<R: Threads + Wait + Sync>(rt: &R, alloc: Global, alone: &Answer) -> bool {
    for workers in [1, 2, 3, 4, 16] {
        if !is_same_answer(rt, alloc, alone, workers) {
            return false;
        }
    }
    true
}

/// Rows of blocks, and the first of the bands that they have a place in: a row of the result has 20/7 rows of the picture.
static FAILING: [(u32, u64); 4] = [(0, 0), (3, 2), (5, 3), (9, 6)];

/// Whether any number of them sends the bands above, where blocks fail.
fn end_above<R: Threads + Wait + Sync>(rt: &R, alloc: Global, whole: &Answer) -> bool {
    for failing in &FAILING {
        for workers in [1, 4, 16] {
            if !ends_above(rt, alloc, whole, *failing, workers) {
                return false;
            }
        }
    }
    true
}

#[test]
fn each_block_is_asked_for_once_and_bands_above_a_fault_are_sent(rt: HostRuntime) {
    let alone = sent(&rt, rt.alloc(), Failing::Blocks(None), 1);
    assert!(rt; alone.is_some());
    if let Some(alone) = &alone {
        assert!(rt; is_same(&(alone.bytes.len() as u64), &LEN));
        assert!(rt; is_same(&alone.end, &Ok([LEN, 2 * 7, KEPT, LEN])));
        assert!(rt; are_same(&rt, rt.alloc(), alone));
        assert!(rt; end_above(&rt, rt.alloc(), alone));
    }
}

/// Whether a block that fails as it is asked for, and wouldn't fail again, ends the image, whichever of all it is in time.
fn ends_at_once<R: Threads + Wait + Sync>(rt: &R, alloc: Global, whole: &Answer) -> bool {
    for place in [0, 1, 2, 9, 10, 29, 30, 50, 98, 99] {
        for workers in [1, 2, 4, 16] {
            let Some(answer) = sent(rt, alloc, Failing::Once(place), workers) else {
                return false;
            };
            let is_cut = matches!(answer.end, Err((_, Some(Fault::UnknownName))));
            if !is_cut || !whole.bytes.as_slice().starts_with(&answer.bytes) {
                return false;
            }
        }
    }
    true
}

#[test]
fn fault_that_is_met_once_ends_the_image(rt: HostRuntime) {
    let whole = sent(&rt, rt.alloc(), Failing::Blocks(None), 1);
    assert!(rt; whole.is_some());
    if let Some(whole) = &whole {
        assert!(rt; is_same(&(whole.bytes.len() as u64), &LEN) && is_same(&whole.asks, &100));
        assert!(rt; ends_at_once(&rt, rt.alloc(), whole));
    }
}

/// A writer whose reader is there when it is first looked for, and gone then.
#[derive(Drop)]
struct Leaving {
    looks: AtomicU64,
}

impl Write for Leaving {
    fn write(&mut self, _bytes: &[u8]) -> io::Result<usize> {
        Err(io::Error::from(ErrorKind::BrokenPipe))
    }

    fn flush(&mut self) -> io::Result<()> {
        Ok(())
    }
}

impl Outlet for Leaving {
    ghost fails = { λ _ _. Unit {0} };

    fn put(&mut self, bytes: &[u8]) -> io::Result<usize> {
        self.write(bytes)
    }

    fn is_gone(&self) -> bool {
        self.looks.fetch_add(1, Ordering::SeqCst) > 0
    }
}

/// How the picture is sent to one who goes away meanwhile, and how many blocks were asked for.
fn left<R: Threads + Wait + Sync>(rt: &R, alloc: Global, fails: Failing) -> Option<(End, u64)> {
    let shown = sample(alloc, fails)?;
    let mut out = Leaving {
        looks: AtomicU64::new(0),
    };
    match job(alloc, shown.shape, 2, Dim { w: 7, h: 7 }, UPRIGHT, 1) {
        Some(job) => send_to(rt, alloc, &shown, &job, 2, &mut out),
        None => None,
    }
}

/// The first job's turn doesn't come, that of the second does.
#[test]
fn nothing_is_asked_for_one_who_goes_away_until_the_turn_has_come(rt: HostRuntime) {
    for fails in [Failing::Turn, Failing::Nothing] {
        assert!(rt; is_same(&left(&rt, rt.alloc(), fails), &Some((Err((0, None)), 0))));
    }
}

/// How many turns the picture's blocks are queued for, and how many of them aren't given back in the end.
fn turns_of<R: Threads + Wait + Sync>(
    rt: &R,
    alloc: Global,
    fails: Failing,
    is_gone: bool,
) -> Option<(u64, u64)> {
    let shown = sample(alloc, fails)?;
    let job = job(alloc, shown.shape, 2, Dim { w: 7, h: 7 }, UPRIGHT, 1)?;
    if is_gone {
        let mut out = Leaving {
            looks: AtomicU64::new(0),
        };
        let _ = send_to(rt, alloc, &shown, &job, 1, &mut out);
    } else {
        let _ = send(rt, alloc, &shown, &job, 1);
    }
    let left = shown.queued.load(Ordering::SeqCst);
    Some((shown.turns.load(Ordering::SeqCst), left))
}

/// A job behind one that keeps its turn would wait in vain.
#[test]
fn each_turn_is_given_back_where_the_image_is_sent_fails_or_has_no_reader(rt: HostRuntime) {
    let rows = [
        (Failing::Nothing, false),
        (Failing::Blocks(Some(1)), false),
        (Failing::Nothing, true),
        (Failing::Turn, true),
    ];
    for (row, (fails, is_gone)) in rows.iter().enumerate() {
        let found = turns_of(&rt, rt.alloc(), *fails, *is_gone);
        let Some((turns, left)) = found else {
            assert!(rt; false, "row {row}: no memory");
            return;
        };
        assert!(rt; turns > 0 && left == 0, "row {row}: queued for {turns} turns, and {left} weren't given back");
    }
}

/// The picture of 4 by 4 places, which is one tile, turned and sent by one worker.
fn alone<R: Threads + Wait + Sync>(
    rt: &R,
    alloc: Global,
    fails: Failing,
    turn: Turn,
) -> Option<Answer> {
    match tens(alloc, fails) {
        Some(shown) => match job(alloc, shown.shape, 4, Dim { w: 4, h: 4 }, turn, 1) {
            Some(job) => send(rt, alloc, &shown, &job, 1),
            None => None,
        },
        None => None,
    }
}

/// How often the tile is asked for, how the image is sent, and its rows in the file.
type Lone = (Failing, Turn, u64, End, &'static [u8]);

/// As it stands, turned, and where the tile fails. Of a band that is turned its four samples are held twice, and of a tile as it stands all
/// sixteen are kept.
static LONE: [Lone; 4] = [
    (Failing::Nothing, UPRIGHT, 1, Ok([190, 4, 16, 174]), &STEPS),
    (Failing::Nothing, QUARTER, 4, Ok([190, 8, 0, 190]), &TURNED),
    (
        Failing::FirstRow,
        UPRIGHT,
        1,
        Err((0, Some(Fault::BadKey))),
        &[],
    ),
    (
        Failing::FirstRow,
        QUARTER,
        1,
        Err((0, Some(Fault::BadKey))),
        &[],
    ),
];

/// Whether the picture is sent so.
fn is_lone<R: Threads + Wait + Sync>(
    rt: &R,
    alloc: Global,
    (fails, turn, asks, end, rows): &Lone,
) -> bool {
    match alone(rt, alloc, *fails, *turn) {
        Some(answer) => {
            is_same(&answer.asks, asks)
                && is_same(&answer.end, end)
                && is_same(&answer.bytes.as_slice().get(174..).unwrap_or(&[]), rows)
        }
        None => is_missing(),
    }
}

#[test]
fn a_tile_as_it_stands_is_asked_for_once(rt: HostRuntime) {
    for lone in &LONE {
        assert!(rt; is_lone(&rt, rt.alloc(), lone));
    }
}

/// How many samples a picture of 300 by 300 places has: more than go out in one write.
const MANY: usize = 90_000;

/// So many samples, 0 to 249 again and again.
fn many(alloc: Global) -> Result<Vec<u8>, AllocError> {
    let mut samples = Vec::with_capacity(alloc, MANY)?;
    for _ in 0..MANY / 250 {
        for sample in 0..250u8 {
            samples.push(sample)?;
        }
    }
    Ok(samples)
}

/// The picture with these samples as one tile, sent.
fn large<R: Threads + Wait + Sync>(rt: &R, alloc: Global, samples: Vec<u8>) -> Option<Answer> {
    let dim = Dim { w: 300, h: 300 };
    match of_samples(alloc, dim, Samples::Eight(samples), Failing::Nothing) {
        Some(shown) => match job(alloc, shown.shape, 300, dim, UPRIGHT, 1) {
            Some(job) => send(rt, alloc, &shown, &job, 1),
            None => None,
        },
        None => None,
    }
}

/// Whether it is sent whole.
fn is_large_sent<R: Threads + Wait + Sync>(rt: &R, alloc: Global, rows: &[u8]) -> bool {
    let Ok(samples) = many(alloc) else {
        return false;
    };
    match large(rt, alloc, samples) {
        Some(answer) => {
            is_same(&answer.asks, &1)
                && is_same(&answer.end, &Ok([90_174, 300, 90_000, 174]))
                && is_same(&answer.bytes.as_slice().get(174..).unwrap_or(&[]), &rows)
        }
        None => is_missing(),
    }
}

#[test]
fn a_large_tile_is_sent_whole(rt: HostRuntime) {
    let rows = many(rt.alloc());
    assert!(rt; rows.is_ok());
    if let Ok(rows) = &rows {
        assert!(rt; is_large_sent(&rt, rt.alloc(), rows));
    }
}

/// A band's blocks have 4 pixels each, in 20, 30 where the band has a place in three rows of them: 80 and 120. Those of all seven bands.
const WORK: u64 = 5 * 80 + 2 * 120;

/// The queue is told the work of each band, and every block is asked for while its job is in the queue.
#[test]
fn blocks_are_asked_for_in_the_queue_which_is_told_their_work(rt: HostRuntime) {
    let shown = sample(rt.alloc(), Failing::Nothing);
    assert!(rt; shown.is_some());
    if let Some(shown) = &shown {
        let answer = scaled(&rt, rt.alloc(), shown, 2);
        assert!(rt; answer.is_some());
        assert!(rt; is_same(&shown.unqueued.load(Ordering::SeqCst), &0));
        assert!(rt; is_same(&shown.work.load(Ordering::SeqCst), &WORK));
    }
}

/// A picture of 60 by 20 places, scaled to 21 by 7: in rows of 30 blocks, of which a band has a place in two or three, so in 60 or 90. Of
/// 90 only those stay that were kept: the third band has rows 2, 3 and 4 of the blocks, and row 2 stays, so the fourth asks for 4 and 5.
const ASKS: u64 = 60 + 30 + 60 + 60 + 60 + 60 + 30;

#[test]
fn of_a_band_of_more_than_64_blocks_those_stay_that_were_kept(rt: HostRuntime) {
    let mut samples = Vec::new(rt.alloc());
    for place in 0..1_200u32 {
        assert!(rt; samples.push((place % 200) as u8).is_ok());
    }
    let dim = Dim { w: 60, h: 20 };
    let shown = of_samples(rt.alloc(), dim, Samples::Eight(samples), Failing::Nothing);
    assert!(rt; shown.is_some());
    if let Some(shown) = &shown {
        let job = job(rt.alloc(), shown.shape, 2, Dim { w: 21, h: 7 }, UPRIGHT, 1);
        assert!(rt; job.is_some());
        if let Some(job) = &job {
            for workers in [1, 4] {
                match send(&rt, rt.alloc(), shown, job, workers) {
                    Some(answer) => assert!(rt; is_same(&answer.asks, &ASKS), "{workers} workers"),
                    None => assert!(rt; false),
                }
            }
        }
    }
}

/// Four tiles, copied in bands of a row: four samples are held at once, and each tile is asked for in two bands.
#[test]
fn a_band_of_tiles_that_are_copied_is_held_once(rt: HostRuntime) {
    let shown = tens(rt.alloc(), Failing::Nothing);
    assert!(rt; shown.is_some());
    if let Some(shown) = &shown {
        let job = job(rt.alloc(), shown.shape, 2, shown.shape.dim, UPRIGHT, 1);
        assert!(rt; job.is_some());
        if let Some(job) = &job {
            match send(&rt, rt.alloc(), shown, job, 1) {
                Some(answer) => {
                    assert!(rt; is_same(&answer.asks, &8));
                    assert!(rt; is_same(&answer.end, &Ok([190, 4, 0, 190])));
                }
                None => assert!(rt; false),
            }
        }
    }
}

/// A writer that takes all, and notes the longest text that it was given.
#[derive(Drop)]
struct Longest {
    bytes: u64,
}

impl Write for Longest {
    fn write(&mut self, bytes: &[u8]) -> io::Result<usize> {
        self.bytes = self.bytes.max(bytes.len() as u64);
        Ok(bytes.len())
    }

    fn flush(&mut self) -> io::Result<()> {
        Ok(())
    }
}

impl Outlet for Longest {
    ghost fails = { λ _ _. Unit {0} };

    fn put(&mut self, bytes: &[u8]) -> io::Result<usize> {
        self.write(bytes)
    }

    fn is_gone(&self) -> bool {
        false
    }
}

/// The heads have 174 bytes and a row 300: 218 rows are the first that come to 64 KiB.
const BUFFERED: u64 = 174 + 218 * 300;

#[test]
fn rows_go_out_once_they_come_to_64_kib_and_no_more_are_told(rt: HostRuntime) {
    let Ok(samples) = many(rt.alloc()) else {
        assert!(rt; false);
        return;
    };
    let dim = Dim { w: 300, h: 300 };
    let shown = of_samples(rt.alloc(), dim, Samples::Eight(samples), Failing::Nothing);
    assert!(rt; shown.is_some());
    if let Some(shown) = &shown {
        let job = job(rt.alloc(), shown.shape, 150, dim, UPRIGHT, 1);
        assert!(rt; job.is_some());
        if let Some(job) = &job {
            let mut out = Longest { bytes: 0 };
            match send_to(&rt, rt.alloc(), shown, job, 1, &mut out) {
                Some((end, _)) => assert!(rt; is_same(&end, &Ok([90_174, 300, 0, BUFFERED]))),
                None => assert!(rt; false),
            }
            assert!(rt; is_same(&out.bytes, &BUFFERED));
        }
    }
}
