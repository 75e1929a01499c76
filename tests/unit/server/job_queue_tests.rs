//! Jobs that wait until others are done, and those whose patience ends.

use crate::fixtures::{is_missing, is_same};
use iiif_server::{JobQueue, Queued};
use std::io;
use std::sync::Wait;
use std::sync::atomic::{AtomicBool, AtomicU64, Ordering};
use std::thread::{Threads, join, sleep};
use std::time::{Clock, Duration, Instant};

/// Work that is light, and work that is heavy.
const LIGHT: u64 = 1_000_000;

const HEAVY: u64 = 400_000_000;

/// A clock that goes on by 10 milliseconds each time that it is read, and else stands still. So how late a job is doesn't depend on what
/// else the machine does.
#[derive(Drop)]
struct Ticking<'a, W> {
    _host: &'a W,
    readings: AtomicU64,
}

impl<'a, W> Ticking<'a, W> {
    fn new(host: &'a W) -> Ticking<'a, W> {
        Ticking {
            _host: host,
            readings: AtomicU64::new(0),
        }
    }
}

impl<'a, W: Wait> Wait for Ticking<'a, W> {}

impl<'a, W> Clock for Ticking<'a, W> {
    fn monotonic(&self) -> io::Result<Duration> {
        let reading = self.readings.fetch_add(1, Ordering::SeqCst);
        Ok(Duration::from_millis(reading.wrapping_mul(10)))
    }

    fn since_1970(&self) -> io::Result<Duration> {
        self.monotonic()
    }
}

/// Waits until a job is admitted, for 100 milliseconds at most, and says whether it is.
fn wait<R: Wait + Clock>(rt: &R, queue: &JobQueue, job: &Queued) -> bool {
    queue.wait(rt, job, Duration::from_millis(100))
}

/// Whether a job waits for as long as one does behind jobs that don't end, or for less than half of that: 500 milliseconds and 250. None
/// where it waits longer, or the clock fails.
fn is_late<R: Wait + Clock>(rt: &R, queue: &JobQueue, job: &Queued) -> Option<bool> {
    let begun = Instant::now(rt).ok()?;
    for _ in 0..20u32 {
        if wait(rt, queue, job) {
            let passed = begun.elapsed(rt).ok()?;
            return Some(passed >= Duration::from_millis(250));
        }
    }
    None
}

/// Enqueues a job, and says whether it is late, too.
fn next<R: Wait + Clock>(rt: &R, queue: &JobQueue, work: u64) -> (Queued, Option<bool>) {
    let job = queue.enqueue(rt, work);
    let late = is_late(rt, queue, &job);
    (job, late)
}

/// Two jobs are let in. None leaves, so the third and the fourth wait, and are let in all the same. Once three of the four have left, one
/// more is at once.
#[test]
fn two_are_let_in_and_one_more_each_half_second(rt: HostRuntime) {
    let queue = JobQueue::new(rt.alloc(), 2, 1);
    let clock = Ticking::new(&rt);
    let (first, at_once) = next(&clock, &queue, LIGHT);
    assert!(rt; is_same(&at_once, &Some(false)));
    let (second, at_once) = next(&clock, &queue, LIGHT);
    assert!(rt; is_same(&at_once, &Some(false)));
    let (third, late) = next(&clock, &queue, LIGHT);
    assert!(rt; is_same(&late, &Some(true)));
    let (fourth, late) = next(&clock, &queue, LIGHT);
    assert!(rt; is_same(&late, &Some(true)));
    queue.release(&clock, first);
    queue.release(&clock, second);
    queue.release(&clock, third);
    let (fifth, at_once) = next(&clock, &queue, LIGHT);
    assert!(rt; is_same(&at_once, &Some(false)));
    let (sixth, late) = next(&clock, &queue, LIGHT);
    assert!(rt; is_same(&late, &Some(true)));
    queue.release(&clock, fourth);
    queue.release(&clock, fifth);
    queue.release(&clock, sixth);
}

/// A light job waits for no heavy ones, of which one is let in.
#[test]
fn light_jobs_pass_heavy_ones(rt: HostRuntime) {
    let queue = JobQueue::new(rt.alloc(), 2, 1);
    let clock = Ticking::new(&rt);
    let own = queue.enqueue(&clock, HEAVY);
    let waits = queue.enqueue(&clock, HEAVY);
    let light = queue.enqueue(&clock, LIGHT);
    assert!(rt; is_same(&is_late(&clock, &queue, &light), &Some(false)));
    assert!(rt; !wait(&clock, &queue, &waits));
    queue.release(&clock, own);
    queue.release(&clock, waits);
    queue.release(&clock, light);
}

/// Of two jobs that come while one is at work the first waits no longer. The second is let in as soon as that one has left.
#[test]
fn job_that_waits_no_longer_is_passed_over(rt: HostRuntime) {
    let queue = JobQueue::new(rt.alloc(), 1, 1);
    let clock = Ticking::new(&rt);
    let own = queue.enqueue(&clock, HEAVY);
    let first = queue.enqueue(&clock, HEAVY);
    let second = queue.enqueue(&clock, HEAVY);
    queue.release(&clock, first);
    queue.release(&clock, own);
    assert!(rt; is_same(&is_late(&clock, &queue, &second), &Some(false)));
    queue.release(&clock, second);
}

/// Of two that wait the one of less work is let in, though it came later; one that came much later isn't.
#[test]
fn less_work_comes_first(rt: HostRuntime) {
    let queue = JobQueue::new(rt.alloc(), 1, 1);
    let clock = Ticking::new(&rt);
    let own = queue.enqueue(&clock, HEAVY);
    let most = queue.enqueue(&clock, HEAVY);
    let less = queue.enqueue(&clock, HEAVY / 2);
    let same = queue.enqueue(&clock, HEAVY - LIGHT);
    queue.release(&clock, own);
    assert!(rt; is_same(&is_late(&clock, &queue, &less), &Some(false)));
    queue.release(&clock, less);
    assert!(rt; is_same(&is_late(&clock, &queue, &most), &Some(false)));
    queue.release(&clock, most);
    assert!(rt; is_same(&is_late(&clock, &queue, &same), &Some(false)));
    queue.release(&clock, same);
}

/// The host's clock, which tells whether it was read.
#[derive(Drop)]
struct Watched<'a, R> {
    host: &'a R,
    is_read: AtomicBool,
}

impl<'a, R: Wait> Wait for Watched<'a, R> {}

impl<'a, R: Clock> Clock for Watched<'a, R> {
    fn monotonic(&self) -> io::Result<Duration> {
        self.is_read.store(true, Ordering::SeqCst);
        self.host.monotonic()
    }

    fn since_1970(&self) -> io::Result<Duration> {
        self.host.since_1970()
    }
}

/// How long a job waits that is let in as another one leaves. None where it isn't let in, or the clock fails.
///
/// 1. The job that waits takes the lock of the queue, and reads its clock.
/// 2. The other one sees that the clock was read, and leaves. For that it needs the lock.
/// 3. The job that waits notes how often it was woken, gives the lock back, and sleeps: for 100 milliseconds, or until it is woken.
///
/// So it always sleeps, or is about to, when the other one leaves.
fn time_until_let_in<R: Threads + Wait + Clock + Sync>(
    rt: &R,
    queue: &JobQueue,
) -> Option<Duration> {
    let own = queue.enqueue(rt, HEAVY);
    let next = queue.enqueue(rt, HEAVY);
    let mut own = Some(own);
    let clock = Watched {
        host: rt,
        is_read: AtomicBool::new(false),
    };
    let (took, _) = join(
        rt,
        || {
            let begun = Instant::now(rt).ok()?;
            if wait(&clock, queue, &next) {
                begun.elapsed(rt).ok()
            } else {
                None
            }
        },
        || {
            while !clock.is_read.load(Ordering::SeqCst) {
                sleep(rt, Duration::from_millis(1));
            }
            if let Some(own) = own.take() {
                queue.release(rt, own);
            }
        },
    );
    match own {
        Some(own) => queue.release(rt, own),
        None => {}
    }
    queue.release(rt, next);
    took
}

/// A sleep of 100 milliseconds that nobody ends takes as long at least, on any machine. So a job that was let in sooner was woken. A busy
/// machine may be late with any of them: the shortest of a hundred counts.
#[test]
fn job_that_waits_is_woken_by_the_one_that_leaves(rt: HostRuntime) {
    let queue = JobQueue::new(rt.alloc(), 1, 1);
    let mut last = None;
    for _ in 0..100u32 {
        last = time_until_let_in(&rt, &queue);
        if last.is_some_and(|took| took < Duration::from_millis(100)) {
            return;
        }
    }
    assert!(rt; false, "let in after {last:?}");
}
