//! The same work as the program `area_bench`, in plain Rust, to compare times in one run. Built by `rustc -O`.
//! With no argument the check sums of a small picture, with `large` the milliseconds of processor time for a gray one of
//! 10,000 by 10,000, over the whole picture at once, with `larger` for gray ones that are scaled up, with `sixteen` of 16 bits a sample.
//! With `columns` too, the way of the definition, place by place, is left out.

#[path = "../clock.rs"]
mod clock;
#[path = "../samples.rs"]
mod samples;

use clock::cpu;
use samples::{Sample, check_sum, pattern};
use std::env;
use std::hint::black_box;

const SIDE: u32 = 10_000;

fn weight(i: u32, x: u32, a: u32, c: u32) -> u64 {
    let (i, x, a, c) = (u64::from(i), u64::from(x), u64::from(a), u64::from(c));
    let end = ((i + 1) * a).min((x + 1) * c);
    let start = (i * a).max(x * c);
    end.saturating_sub(start)
}

/// The source columns of result column `i`: the first, and the one past the last.
fn sources(i: u32, a: u32, c: u32) -> (u32, u32) {
    let (i, a, c) = (u64::from(i), u64::from(a), u64::from(c));
    ((i * a / c) as u32, ((i + 1) * a).div_ceil(c) as u32)
}

/// The source rows of result row `j` added up, each with its weight.
fn add_rows<T: Sample>(samples: &[T], side: u32, d: u32, j: u32, columns: &mut [u64]) {
    columns.fill(0);
    let (top, bottom) = sources(j, side, d);
    for y in top..bottom {
        let w = weight(j, y, side, d) as u32;
        let row = &samples[y as usize * side as usize..(y as usize + 1) * side as usize];
        for (column, sample) in columns.iter_mut().zip(row) {
            *column += u64::from(w) * Into::<u64>::into(*sample);
        }
    }
}

/// The sums of the whole picture in one run, by columns that are added up for each result row.
fn by_columns<T: Sample>(samples: &[T], side: u32, d: u32) -> Vec<u64> {
    let mut sums = Vec::with_capacity(d as usize * d as usize);
    let mut columns = vec![0u64; side as usize];
    for j in 0..d {
        add_rows(samples, side, d, j, &mut columns);
        for i in 0..d {
            let (left, right) = sources(i, side, d);
            let mut sum = 0;
            for x in left..right {
                sum += weight(i, x, side, d) * columns[x as usize];
            }
            sums.push(sum);
        }
    }
    sums
}

/// Only the whole rows added up, each with its weight, of which nothing is made: what no way by columns goes below.
fn rows_alone<T: Sample>(samples: &[T], side: u32, d: u32) -> Vec<u64> {
    let mut sums = Vec::with_capacity(d as usize);
    let mut columns = vec![0u64; side as usize];
    for j in 0..d {
        add_rows(samples, side, d, j, &mut columns);
        sums.push(columns[j as usize]);
    }
    sums
}

/// Place by place, as the definition says it: a picture of a by b with some channels, scaled to c by d.
fn by_places<T: Sample>(samples: &[T], (a, b): (u32, u32), (c, d): (u32, u32), channels: usize) -> Vec<u64> {
    let mut sums = Vec::with_capacity(c as usize * d as usize * channels);
    for j in 0..d {
        let (top, bottom) = sources(j, b, d);
        for i in 0..c {
            let (left, right) = sources(i, a, c);
            for k in 0..channels {
                let mut sum = 0;
                for y in top..bottom {
                    let mut row = 0;
                    for x in left..right {
                        let place = y as usize * a as usize + x as usize;
                        row += weight(i, x, a, c) * Into::<u64>::into(samples[place * channels + k]);
                    }
                    sum += weight(j, y, b, d) * row;
                }
                sums.push(sum);
            }
        }
    }
    sums
}

/// What a row of samples gives to each result column, where none is wider than a source column: parts of two at most.
fn stretched<T: Sample>(row: &[T], spans: &[(usize, usize, u64, u64)], to: &mut [u64]) {
    for (sum, &(left, right, first, last)) in to.iter_mut().zip(spans) {
        let (near, far): (u64, u64) = (row[left].into(), row[right].into());
        *sum = first * near + last * far;
    }
}

/// The sums of a gray picture of a by b that is scaled up in both directions to c by d: each source row is stretched once, and
/// each result row takes of two at most.
fn by_stretched_rows<T: Sample>(samples: &[T], (a, b): (u32, u32), (c, d): (u32, u32)) -> Vec<u64> {
    let spans: Vec<_> = (0..c)
        .map(|i| {
            let (left, right) = sources(i, a, c);
            let last = if right - left > 1 {
                weight(i, right - 1, a, c)
            } else {
                0
            };
            (
                left as usize,
                right as usize - 1,
                weight(i, left, a, c),
                last,
            )
        })
        .collect();
    let mut sums = Vec::with_capacity(c as usize * d as usize);
    // The stretched rows of even and of odd numbers, and which they are.
    let mut rows = [
        (u32::MAX, vec![0u64; c as usize]),
        (u32::MAX, vec![0u64; c as usize]),
    ];
    for j in 0..d {
        let (top, bottom) = sources(j, b, d);
        for y in top..bottom {
            let (held, row) = &mut rows[y as usize % 2];
            if *held != y {
                *held = y;
                stretched(
                    &samples[y as usize * a as usize..][..a as usize],
                    &spans,
                    row,
                );
            }
        }
        let first = weight(j, top, b, d);
        let upper = &rows[top as usize % 2].1;
        if bottom - top == 1 {
            sums.extend(upper.iter().map(|sum| first * sum));
        } else {
            let last = weight(j, top + 1, b, d);
            let lower = &rows[(top as usize + 1) % 2].1;
            sums.extend(upper.iter().zip(lower).map(|(p, q)| first * p + last * q));
        }
    }
    sums
}

fn finish<T: Sample>(sums: &[u64], area: u64) -> Vec<T> {
    sums.iter()
        .map(|s| T::low(((2 * s + area) / (2 * area)).min(T::TOP)))
        .collect()
}

/// The milliseconds that a piece of work takes, and what it makes.
fn timed<T>(work: impl FnOnce() -> T) -> (f64, T) {
    let start = cpu();
    let made = work();
    ((cpu() - start).as_secs_f64() * 1000.0, made)
}

fn small<T: Sample>() {
    let samples = pattern::<T>(37 * 23 * 3);
    for (c, d) in [(5, 3), (16, 11), (37, 23), (50, 31), (74, 11), (7, 100)] {
        let sums = by_places(&samples, (37, 23), (c, d), 3);
        println!("{c} by {d}: sum {}", check_sum(&finish::<T>(&sums, 37 * 23)));
    }
}

/// The result with a side of `d`, by columns and finished, and what no way by columns goes below.
fn measure<T: Sample>(samples: &[T], d: u32) -> Vec<u64> {
    let area = u64::from(SIDE) * u64::from(SIDE);
    let (columns, sums) = timed(|| by_columns(samples, SIDE, d));
    let (rows, _) = timed(|| black_box(rows_alone(samples, SIDE, d)));
    let (finished, made) = timed(|| finish::<T>(&sums, area));
    let sum = check_sum(&made);
    println!("{d} by {d}: columns {columns:.1} ms, finished {finished:.1} ms, rows alone {rows:.1} ms, sum {sum}");
    sums
}

fn large<T: Sample>(only_columns: bool) {
    let samples = pattern::<T>(SIDE as usize * SIDE as usize);
    let (copied, _) = timed(|| black_box(samples.clone()));
    println!("a copy of all samples {copied:.1} ms");
    for d in [100, 1024, 4096, 8000] {
        let sums = measure(&samples, d);
        if !only_columns {
            let (places, same) = timed(|| by_places(&samples, (SIDE, SIDE), (d, d), 1));
            assert!(sums == same);
            println!("{d} by {d}: place by place {places:.1} ms");
        }
    }
}

fn larger<T: Sample>(only_rows: bool) {
    for (side, d) in [(512, 1024), (1024, 4096)] {
        let samples = pattern::<T>(side as usize * side as usize);
        let (stretched, sums) = timed(|| by_stretched_rows(&samples, (side, side), (d, d)));
        let (finished, made) = timed(|| finish::<T>(&sums, u64::from(side) * u64::from(side)));
        let sum = check_sum(&made);
        println!("{d} by {d}: stretched rows {stretched:.1} ms, finished {finished:.1} ms, sum {sum}");
        if !only_rows {
            let (places, same) = timed(|| by_places(&samples, (side, side), (d, d), 1));
            assert!(sums == same);
            println!("{d} by {d}: place by place {places:.1} ms");
        }
    }
}

fn run<T: Sample>(words: &[String]) {
    let is_said = |word: &str| words.iter().any(|said| said == word);
    if is_said("large") {
        large::<T>(is_said("columns"));
    } else if is_said("larger") {
        larger::<T>(is_said("columns"));
    } else {
        small::<T>();
    }
}

fn main() {
    let words: Vec<String> = env::args().collect();
    if words.iter().any(|word| word == "sixteen") {
        run::<u16>(&words);
    } else {
        run::<u8>(&words);
    }
}
