//! The same work as the program `write_bench`, in plain Rust, to compare times in one run. Built by `rustc -O`.
//! With no argument the check sums of five small files, with `large` the milliseconds of processor time for pictures of
//! 4,000 by 4,000, the least of five runs, and those of a plain copy of the samples.

#[path = "../clock.rs"]
mod clock;
#[path = "../samples.rs"]
mod samples;

use clock::cpu;
use samples::{check_sum, pattern};
use std::env;
use std::hint::black_box;
use std::time::Duration;

#[derive(Clone, Copy, PartialEq)]
enum Kind {
    Gray,
    Rgb,
    Bitonal,
    Gray16,
    Rgb16,
}

impl Kind {
    fn is_rgb(self) -> bool {
        self == Kind::Rgb || self == Kind::Rgb16
    }

    fn bits(self) -> u32 {
        match self {
            Kind::Gray | Kind::Rgb => 8,
            Kind::Bitonal => 1,
            Kind::Gray16 | Kind::Rgb16 => 16,
        }
    }
}

/// The samples of a picture.
enum Samples {
    Eight(Vec<u8>),
    Sixteen(Vec<u16>),
}

impl Samples {
    fn eight(count: usize) -> Samples {
        Samples::Eight(pattern(count))
    }

    fn sixteen(count: usize) -> Samples {
        Samples::Sixteen(pattern(count))
    }
}

fn field(out: &mut Vec<u8>, tag: u16, kind: u16, count: u32, value: u32) {
    out.extend_from_slice(&tag.to_le_bytes());
    out.extend_from_slice(&kind.to_le_bytes());
    out.extend_from_slice(&count.to_le_bytes());
    out.extend_from_slice(&value.to_le_bytes());
}

fn row_len(kind: Kind, w: usize) -> usize {
    match kind {
        Kind::Gray => w,
        Kind::Rgb => w * 3,
        Kind::Bitonal => w.div_ceil(8),
        Kind::Gray16 => w * 2,
        Kind::Rgb16 => w * 6,
    }
}

fn head(kind: Kind, w: usize, h: usize, out: &mut Vec<u8>) {
    let rgb = kind.is_rgb();
    out.extend_from_slice(b"II*\0\x08\0\0\0\x0c\0");
    field(out, 256, 4, 1, w as u32);
    field(out, 257, 4, 1, h as u32);
    if rgb {
        field(out, 258, 3, 3, 174);
    } else {
        field(out, 258, 3, 1, kind.bits());
    }
    field(out, 259, 3, 1, 1);
    field(out, 262, 3, 1, if rgb { 2 } else { 1 });
    field(out, 273, 4, 1, if rgb { 180 } else { 174 });
    field(out, 277, 3, 1, if rgb { 3 } else { 1 });
    field(out, 278, 4, 1, h as u32);
    field(out, 279, 4, 1, (row_len(kind, w) * h) as u32);
    field(out, 282, 5, 1, 158);
    field(out, 283, 5, 1, 166);
    field(out, 296, 3, 1, 1);
    for number in [0u32, 1, 1, 1, 1] {
        out.extend_from_slice(&number.to_le_bytes());
    }
    if rgb {
        out.extend_from_slice(&[kind.bits() as u8, 0].repeat(3));
    }
}

fn write(kind: Kind, w: usize, h: usize, samples: &Samples, out: &mut Vec<u8>) {
    head(kind, w, h, out);
    match samples {
        Samples::Eight(samples) if kind == Kind::Bitonal => {
            for row in samples.chunks_exact(w) {
                for eight in row.chunks(8) {
                    let bits = eight.iter().fold(0, |byte, v| byte << 1 | (*v >> 7));
                    out.push(bits << (8 - eight.len()));
                }
            }
        }
        Samples::Eight(samples) => out.extend_from_slice(samples),
        Samples::Sixteen(samples) => out.extend(samples.iter().flat_map(|v| v.to_le_bytes())),
    }
}

/// The least milliseconds of five runs.
fn least_of_five(mut work: impl FnMut()) -> f64 {
    let mut least = Duration::MAX;
    for _ in 0..5 {
        let start = cpu();
        work();
        least = least.min(cpu() - start);
    }
    least.as_secs_f64() * 1000.0
}

/// The milliseconds of a plain copy of the samples, and its check sum.
fn plain_copy(samples: &Samples) -> (f64, u64) {
    fn copy<T: Copy>(samples: &[T]) -> (f64, Vec<T>) {
        let mut copy = Vec::with_capacity(samples.len());
        let time = least_of_five(|| {
            copy.clear();
            copy.extend_from_slice(black_box(samples));
            black_box(&copy);
        });
        (time, copy)
    }
    match samples {
        Samples::Eight(samples) => {
            let (time, copy) = copy(samples);
            (time, check_sum(&copy))
        }
        Samples::Sixteen(samples) => {
            let (time, copy) = copy(samples);
            (time, u64::from(copy[0]))
        }
    }
}

fn measure(name: &str, kind: Kind, w: usize, h: usize, samples: &Samples, large: bool) {
    let head_len = if kind.is_rgb() { 180 } else { 174 };
    let len = head_len + row_len(kind, w) * h;
    let mut out = Vec::with_capacity(len);
    let time = if large {
        least_of_five(|| {
            out.clear();
            write(kind, w, h, black_box(samples), &mut out);
            black_box(&out);
        })
    } else {
        write(kind, w, h, samples, &mut out);
        0.0
    };
    let sum = check_sum(&out);
    if large {
        let (plain, of_copy) = plain_copy(samples);
        println!("{name}: {time:.1} ms, {} bytes, sum {sum}; plain copy {plain:.1} ms, sum {of_copy}", out.len());
    } else {
        println!("{name}: {} bytes, sum {sum}", out.len());
    }
}

fn main() {
    let large = env::args().any(|word| word == "large");
    let (w, h) = if large { (4000, 4000) } else { (37, 23) };
    let (gray, rgb) = (Samples::eight(w * h), Samples::eight(w * h * 3));
    measure("gray", Kind::Gray, w, h, &gray, large);
    measure("rgb", Kind::Rgb, w, h, &rgb, large);
    measure("bitonal", Kind::Bitonal, w, h, &gray, large);
    let (gray, rgb) = (Samples::sixteen(w * h), Samples::sixteen(w * h * 3));
    measure("gray of 16 bits", Kind::Gray16, w, h, &gray, large);
    measure("rgb of 16 bits", Kind::Rgb16, w, h, &rgb, large);
}
