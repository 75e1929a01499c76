//! The same work as the program `pixel_bench`, in plain Rust, to compare times in one run. Built by `rustc -O`.
//! With no argument the check sums of a small picture, with `large` the milliseconds for one of 4,000 by 4,000, with `sixteen` of
//! 16 bits a sample.

#[path = "../clock.rs"]
mod clock;
#[path = "../samples.rs"]
mod samples;

use clock::cpu;
use samples::{Sample, check_sum};
use std::env;

const BLOCK: usize = 32;

struct Picture<T> {
    w: usize,
    h: usize,
    samples: Vec<T>,
}

fn pattern<T: Sample>(w: usize, h: usize) -> Picture<T> {
    Picture { w, h, samples: samples::pattern(w * h * 3) }
}

fn crop<T: Sample>(p: &Picture<T>, x: usize, y: usize, w: usize, h: usize) -> Vec<T> {
    let mut part = Vec::with_capacity(w * h * 3);
    for row in y..y + h {
        let start = (row * p.w + x) * 3;
        part.extend_from_slice(&p.samples[start..start + w * 3]);
    }
    part
}

/// Rows stay rows, with columns or rows running backwards.
fn rows<T: Sample>(p: &Picture<T>, flip_x: bool, flip_y: bool) -> Vec<T> {
    let mut turned = vec![T::default(); p.samples.len()];
    for (y, row) in turned.chunks_exact_mut(p.w * 3).enumerate() {
        let v = if flip_y { p.h - 1 - y } else { y };
        let from = &p.samples[v * p.w * 3..(v + 1) * p.w * 3];
        if flip_x {
            for (to, place) in row.chunks_exact_mut(3).zip(from.chunks_exact(3).rev()) {
                to.copy_from_slice(place);
            }
        } else {
            row.copy_from_slice(from);
        }
    }
    turned
}

/// Columns become rows, square block by square block.
fn columns<T: Sample>(p: &Picture<T>, flip_x: bool, flip_y: bool) -> Vec<T> {
    let mut turned = vec![T::default(); p.samples.len()];
    for top in (0..p.w).step_by(BLOCK) {
        for left in (0..p.h).step_by(BLOCK) {
            for y in top..(top + BLOCK).min(p.w) {
                let u = if flip_y { p.w - 1 - y } else { y };
                for x in left..(left + BLOCK).min(p.h) {
                    let v = if flip_x { p.h - 1 - x } else { x };
                    let to = (y * p.h + x) * 3;
                    let from = (v * p.w + u) * 3;
                    turned[to..to + 3].copy_from_slice(&p.samples[from..from + 3]);
                }
            }
        }
    }
    turned
}

fn turn<T: Sample>(p: &Picture<T>, mirror: bool, quarters: u8) -> Vec<T> {
    match quarters {
        0 => rows(p, mirror, false),
        1 => columns(p, true, mirror),
        2 => rows(p, !mirror, true),
        _ => columns(p, false, !mirror),
    }
}

/// The gray value of a place, by the weights of BT.601 in thousandths.
fn gray_of<T: Sample>(place: &[T]) -> u32 {
    let (r, g, b): (u32, u32, u32) = (place[0].into(), place[1].into(), place[2].into());
    (299 * r + 587 * g + 114 * b + 500) / 1000
}

fn gray<T: Sample>(p: &Picture<T>) -> Vec<T> {
    p.samples.chunks_exact(3).map(|place| T::low(u64::from(gray_of(place)))).collect()
}

/// 0 and 255, of both depths.
fn bitonal<T: Sample>(p: &Picture<T>) -> Vec<u8> {
    let half = (T::TOP / 2) as u32;
    p.samples.chunks_exact(3).map(|place| if gray_of(place) <= half { 0 } else { 255 }).collect()
}

fn measure<T: Sample>(name: &str, large: bool, work: impl Fn() -> Vec<T>) {
    let start = cpu();
    let made = work();
    let time = (cpu() - start).as_micros();
    let sum = check_sum(&made);
    if large {
        println!("{name}: {}.{} ms, sum {sum}", time / 1000, time / 100 % 10);
    } else {
        println!("{name}: sum {sum}");
    }
}

fn measure_all<T: Sample>(large: bool) {
    let side = if large { (4000, 4000) } else { (37, 23) };
    let part = if large { (100, 100, 3800, 3800) } else { (3, 2, 30, 20) };
    let p = pattern::<T>(side.0, side.1);
    measure("crop", large, || crop(&p, part.0, part.1, part.2, part.3));
    for mirror in [false, true] {
        for quarters in 0..4u8 {
            let name = format!("turn {}{}", if mirror { "!" } else { "" }, u32::from(quarters) * 90);
            measure(&name, large, || turn(&p, mirror, quarters));
        }
    }
    measure("gray", large, || gray(&p));
    measure("bitonal", large, || bitonal(&p));
}

fn main() {
    let large = env::args().any(|word| word == "large");
    if env::args().any(|word| word == "sixteen") {
        measure_all::<u16>(large);
    } else {
        measure_all::<u8>(large);
    }
}
