//! One region of an uncompressed TIFF file, scaled by exact area averaging and written as a TIFF file: the same work as the
//! program does for `x,y,w,h/c,d/0/default.tif`, in plain Rust, to compare times and memory in one run. Built by `rustc -O`.
//!
//! `compare FILE x y w h c d OUT`. FILE has the low byte first, strips or tiles, gray or RGB of 8 or 16 bits or BlackIsZero bits; it is
//! taken at its word. One row of strips or tiles is held at a time.

use std::fs::File;
use std::io::{BufWriter, Result, Write};
use std::os::unix::fs::FileExt;

/// Where the samples of a file stand. A strip is a tile as wide as the image.
struct Layout {
    width: usize,
    channels: usize,
    bits: usize,
    tile_width: usize,
    tile_length: usize,
    offsets: Vec<u64>,
}

/// A sample of 8 or of 16 bits.
trait Sample: Copy + Default + Into<u64> {
    /// The samples of a row's bytes from a place on, of a file with so many bits a sample.
    fn unpack(bits: usize, line: &[u8], from: usize, samples: &mut [Self]);

    /// The low bits of a number.
    fn low(number: u64) -> Self;

    /// Samples as they stand in the answer.
    fn put(samples: &[Self], out: &mut impl Write) -> Result<()>;
}

impl Sample for u8 {
    fn unpack(bits: usize, line: &[u8], from: usize, samples: &mut [u8]) {
        if bits == 8 {
            samples.copy_from_slice(&line[from..from + samples.len()]);
        } else {
            for (x, sample) in (from..).zip(samples) {
                *sample = (line[x / 8] >> (7 - x % 8) & 1) * 255;
            }
        }
    }

    fn low(number: u64) -> u8 {
        number as u8
    }

    fn put(samples: &[u8], out: &mut impl Write) -> Result<()> {
        out.write_all(samples)
    }
}

impl Sample for u16 {
    fn unpack(_: usize, line: &[u8], from: usize, samples: &mut [u16]) {
        let bytes = &line[2 * from..2 * (from + samples.len())];
        for (sample, pair) in samples.iter_mut().zip(bytes.chunks_exact(2)) {
            *sample = u16::from_le_bytes([pair[0], pair[1]]);
        }
    }

    fn low(number: u64) -> u16 {
        number as u16
    }

    fn put(samples: &[u16], out: &mut impl Write) -> Result<()> {
        for some in samples.chunks(4096) {
            let bytes: Vec<u8> = some.iter().flat_map(|v| v.to_le_bytes()).collect();
            out.write_all(&bytes)?;
        }
        Ok(())
    }
}

fn number(bytes: &[u8]) -> u64 {
    bytes
        .iter()
        .rev()
        .fold(0, |n, byte| n << 8 | u64::from(*byte))
}

/// The values of a field, each a SHORT or a LONG, or a default where there is none.
fn values(file: &File, entries: &[u8], tag: u64, default: &[u64]) -> Result<Vec<u64>> {
    let Some(entry) = entries
        .chunks_exact(12)
        .find(|entry| number(&entry[..2]) == tag)
    else {
        return Ok(default.to_vec());
    };
    let size = if number(&entry[2..4]) == 3 { 2 } else { 4 };
    let count = number(&entry[4..8]) as usize;
    let mut bytes = entry[8..12].to_vec();
    if size * count > 4 {
        let at = number(&bytes);
        bytes = vec![0; size * count];
        file.read_exact_at(&mut bytes, at)?;
    }
    Ok(bytes.chunks_exact(size).take(count).map(number).collect())
}

fn layout(file: &File) -> Result<Layout> {
    let mut head = [0; 8];
    file.read_exact_at(&mut head, 0)?;
    let at = number(&head[4..]);
    let mut count = [0; 2];
    file.read_exact_at(&mut count, at)?;
    let mut entries = vec![0; 12 * number(&count) as usize];
    file.read_exact_at(&mut entries, at + 2)?;
    let one = |tag, default| {
        Ok::<_, std::io::Error>(values(file, &entries, tag, &[default])?[0] as usize)
    };
    let (width, height) = (one(256, 0)?, one(257, 0)?);
    let strips = values(file, &entries, 273, &[])?;
    Ok(Layout {
        width,
        channels: one(277, 1)?,
        bits: one(258, 1)?,
        tile_width: one(322, width as u64)?,
        tile_length: if strips.is_empty() {
            one(323, 0)?
        } else {
            one(278, height as u64)?.min(height)
        },
        offsets: values(file, &entries, 324, &strips)?,
    })
}

/// A rectangle, in places.
#[derive(Clone, Copy)]
struct Rect {
    x: usize,
    y: usize,
    w: usize,
    h: usize,
}

/// The rows from `y` on that stand in one row of strips or tiles, `rows` of them, in `samples`.
fn read_rows<T: Sample>(
    file: &File,
    l: &Layout,
    r: Rect,
    y: usize,
    rows: usize,
    samples: &mut Vec<T>,
) -> Result<()> {
    let per_row = (l.tile_width * l.channels * l.bits).div_ceil(8);
    let across = l.width.div_ceil(l.tile_width);
    let row = r.w * l.channels;
    samples.resize(rows * row, T::default());
    let mut bytes = Vec::new();
    for tile in r.x / l.tile_width..=(r.x + r.w - 1) / l.tile_width {
        let left = tile * l.tile_width;
        let (from, to) = (r.x.max(left), (r.x + r.w).min(left + l.tile_width));
        let start =
            l.offsets[y / l.tile_length * across + tile] + (y % l.tile_length * per_row) as u64;
        bytes.resize(rows * per_row, 0);
        file.read_exact_at(&mut bytes, start)?;
        for (line, samples) in bytes
            .chunks_exact(per_row)
            .zip(samples.chunks_exact_mut(row))
        {
            let samples = &mut samples[(from - r.x) * l.channels..(to - r.x) * l.channels];
            T::unpack(l.bits, line, (from - left) * l.channels, samples);
        }
    }
    Ok(())
}

/// The length of the overlap of result cell `i` with source cell `x`, a source cells to c result cells.
fn weight(i: usize, x: usize, a: usize, c: usize) -> u64 {
    ((i + 1) * a)
        .min((x + 1) * c)
        .saturating_sub((i * a).max(x * c)) as u64
}

/// One row of the result, from the weighted sums of its columns.
fn put_row<T: Sample>(
    columns: &[u64],
    channels: usize,
    (a, b): (usize, usize),
    c: usize,
    out: &mut Vec<T>,
) {
    let area = (a * b) as u64;
    for i in 0..c {
        let (first, past) = (i * a / c, ((i + 1) * a).div_ceil(c));
        for k in 0..channels {
            let edges = |x: usize| weight(i, x, a, c) * columns[x * channels + k];
            let mut sum = edges(first);
            if past - first > 1 {
                sum += edges(past - 1);
                sum += c as u64
                    * (first + 1..past - 1)
                        .map(|x| columns[x * channels + k])
                        .sum::<u64>();
            }
            out.push(T::low((2 * sum + area) / (2 * area)));
        }
    }
}

/// The samples of the region, scaled to c by d.
fn scaled<T: Sample>(file: &File, l: &Layout, r: Rect, (c, d): (usize, usize)) -> Result<Vec<T>> {
    let row = r.w * l.channels;
    let mut out = Vec::with_capacity(c * d * l.channels);
    let mut columns = vec![0u64; row];
    let mut samples = Vec::<T>::new();
    let (mut y, mut j) = (0, 0);
    while y < r.h {
        let rows = (l.tile_length - (r.y + y) % l.tile_length).min(r.h - y);
        read_rows(file, l, r, r.y + y, rows, &mut samples)?;
        for line in samples.chunks_exact(row) {
            if (r.w, r.h) == (c, d) {
                out.extend_from_slice(line);
            } else {
                loop {
                    let w = weight(j, y, r.h, d);
                    for (column, sample) in columns.iter_mut().zip(line) {
                        *column += w * Into::<u64>::into(*sample);
                    }
                    if (j + 1) * r.h > (y + 1) * d {
                        break;
                    }
                    put_row(&columns, l.channels, (r.w, r.h), c, &mut out);
                    columns.fill(0);
                    j += 1;
                    if j * r.h >= (y + 1) * d {
                        break;
                    }
                }
            }
            y += 1;
        }
    }
    Ok(out)
}

/// The file of a picture of 8 or 16 bits: one strip, low byte first, twelve entries.
fn write<T: Sample>(out: &str, (c, d): (usize, usize), channels: usize, samples: &[T]) -> Result<()> {
    let mut out = BufWriter::new(File::create(out)?);
    let (c, d, length) = (c as u32, d as u32, size_of_val(samples) as u32);
    let (rgb, depth) = (channels == 3, 8 * size_of::<T>() as u8);
    let bits = if rgb { (3, 174) } else { (1, u32::from(depth)) };
    let entries: [(u16, u16, u32, u32); 12] = [
        (256, 4, 1, c),
        (257, 4, 1, d),
        (258, 3, bits.0, bits.1),
        (259, 3, 1, 1),
        (262, 3, 1, if rgb { 2 } else { 1 }),
        (273, 4, 1, if rgb { 180 } else { 174 }),
        (277, 3, 1, channels as u32),
        (278, 4, 1, d),
        (279, 4, 1, length),
        (282, 5, 1, 158),
        (283, 5, 1, 166),
        (296, 3, 1, 1),
    ];
    out.write_all(b"II*\0\x08\0\0\0\x0c\0")?;
    for (tag, kind, count, value) in entries {
        out.write_all(&[tag.to_le_bytes(), kind.to_le_bytes()].concat())?;
        out.write_all(&[count.to_le_bytes(), value.to_le_bytes()].concat())?;
    }
    out.write_all(&[0; 4])?;
    out.write_all(&[1, 0, 0, 0].repeat(4))?;
    if rgb {
        out.write_all(&[depth, 0, depth, 0, depth, 0])?;
    }
    T::put(samples, &mut out)?;
    out.flush()
}

fn main() -> Result<()> {
    let words: Vec<String> = std::env::args().collect();
    let n: Vec<usize> = words[2..8]
        .iter()
        .map(|word| word.parse().expect("a number"))
        .collect();
    let file = File::open(&words[1])?;
    let layout = layout(&file)?;
    let region = Rect {
        x: n[0],
        y: n[1],
        w: n[2],
        h: n[3],
    };
    let size = (n[4], n[5]);
    if layout.bits == 16 {
        let samples = scaled::<u16>(&file, &layout, region, size)?;
        write(&words[8], size, layout.channels, &samples)
    } else {
        let samples = scaled::<u8>(&file, &layout, region, size)?;
        write(&words[8], size, layout.channels, &samples)
    }
}
