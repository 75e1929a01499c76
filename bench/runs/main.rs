//! The items of a band by four workers: a contiguous run for each; half of what is left for whoever is idle; or an equal share of what is
//! left, as `iiif_assemble` gives it. A model in plain Rust, built by `rustc -O`. A load is a wait of so many milliseconds, as for a file or
//! another node, and a cached item takes none; so what is compared is who waits for whom, and not how fast the machine is. An item of parts
//! is a block, whose last part goes to whoever is idle. It writes the milliseconds of each, the least of five times.

use std::sync::atomic::{AtomicU32, Ordering};
use std::thread;
use std::time::{Duration, Instant};

const WORKERS: usize = 4;

#[derive(Clone, Copy)]
struct Item {
    /// The milliseconds of a part.
    cost: u64,
    parts: u32,
}

fn wait(cost: u64) {
    if cost > 0 {
        thread::sleep(Duration::from_millis(cost));
    }
}

/// A contiguous run of the items for each worker.
fn in_runs(items: &[Item], workers: usize) {
    let run = items.len().div_ceil(workers).max(1);
    thread::scope(|scope| {
        for run in items.chunks(run) {
            scope.spawn(move || run.iter().for_each(|it| wait(it.cost * u64::from(it.parts))));
        }
    });
}

/// The idle workers, a bit for the place of each.
struct Idle(AtomicU32);

impl Idle {
    fn new(workers: usize) -> Idle {
        Idle(AtomicU32::new((1 << (workers - 1)) - 1))
    }

    /// Takes the first idle worker, if there is one, and says in which place it stands.
    fn take(&self) -> Option<u32> {
        let taken = self.0.fetch_update(Ordering::SeqCst, Ordering::SeqCst, |bits| (bits != 0).then_some(bits & (bits.wrapping_sub(1))));
        taken.ok().map(u32::trailing_zeros)
    }

    fn put_back(&self, place: u32) {
        self.0.fetch_or(1 << place, Ordering::SeqCst);
    }

    /// Runs `theirs` by the worker of a place, which is idle then, and `mine` by this one.
    fn join(&self, place: u32, theirs: impl FnOnce() + Send, mine: impl FnOnce()) {
        thread::scope(|scope| {
            scope.spawn(move || {
                theirs();
                self.put_back(place);
            });
            mine();
        });
    }
}

/// Loads an item. Its last part goes to an idle worker, before each part but one.
fn load(item: Item, idle: &Idle) {
    let mut left = item.parts;
    while left > 1 {
        if let Some(place) = idle.take() {
            return idle.join(place, || wait(item.cost), || load(Item { parts: left - 1, ..item }, idle));
        }
        wait(item.cost);
        left -= 1;
    }
    wait(item.cost);
}

/// The back of what is left goes to an idle worker, before each item that isn't cached: half of it, or an equal share.
fn shared(items: &[Item], idle: &Idle, by_half: bool) {
    for n in 0..items.len() {
        let left = &items[n..];
        if left.len() > 1 && items[n].cost > 0 {
            if let Some(place) = idle.take() {
                let among = if by_half { 2 } else { WORKERS - place as usize };
                let (front, back) = left.split_at(left.len() - (left.len() / among).max(1));
                return idle.join(place, || shared(back, idle, by_half), || shared(front, idle, by_half));
            }
        }
        load(items[n], idle);
    }
}

fn least(mut work: impl FnMut()) -> f64 {
    let times = (0..5).map(|_| {
        let begun = Instant::now();
        work();
        begun.elapsed().as_secs_f64() * 1e3
    });
    times.fold(f64::MAX, f64::min)
}

fn main() {
    let whole = |cost| Item { cost, parts: 1 };
    let even = vec![whole(10); 16];
    let cached: Vec<Item> = (0..16).map(|n| whole(if n < 8 { 0 } else { 10 })).collect();
    let late: Vec<Item> = (0..16).map(|n| whole(if n == 0 { 80 } else { 10 })).collect();
    let few = vec![whole(40); 5];
    let blocks = vec![Item { cost: 10, parts: 4 }; 5];
    for (name, items) in [
        ("16 alike", &even),
        ("the first 8 of 16 cached", &cached),
        ("the first of 16 eight times as long", &late),
        ("5 of 40 ms", &few),
        ("5 blocks of 4 parts of 10 ms", &blocks),
    ] {
        let runs = least(|| in_runs(items, WORKERS));
        let halves = least(|| shared(items, &Idle::new(WORKERS), true));
        let shares = least(|| shared(items, &Idle::new(WORKERS), false));
        println!("{name}: runs {runs:.0} ms, halves {halves:.0} ms, shares {shares:.0} ms");
    }
}
