//! Images of pictures as their definitions say, place by place and without care for speed.

use std::alloc::Global;

/// A picture: its sides, its channels, its greatest sample (255 or 65,535), its samples row by row.
#[derive(Clone, Copy)]
pub(crate) struct Plain<'a> {
    pub w: u64,
    pub h: u64,
    pub channels: u64,
    pub top: u64,
    pub samples: &'a [u16],
}

/// An image of a picture: of the region with this left upper place and these sides, scaled to other sides, mirrored or not, and then
/// turned by so many quarters.
#[derive(Clone, Copy)]
pub(crate) struct Image<'a> {
    pub picture: Plain<'a>,
    pub region: [u64; 4],
    pub size: [u64; 2],
    pub mirror: bool,
    pub quarters: u32,
}

impl<'a> Plain<'a> {
    /// The sample in a column, a row and a channel.
    fn at(self, x: u64, y: u64, k: u64) -> u64 {
        let place = y.wrapping_mul(self.w).wrapping_add(x);
        let index = place.wrapping_mul(self.channels).wrapping_add(k);
        match self.samples.get(index as usize) {
            Some(sample) => u64::from(*sample),
            None => 99_999,
        }
    }
}

/// How much of result place i of c lies in source place x of a, both stretched to a by c.
fn overlap(i: u64, x: u64, a: u64, c: u64) -> u64 {
    let end = i
        .wrapping_add(1)
        .wrapping_mul(a)
        .min(x.wrapping_add(1).wrapping_mul(c));
    let start = i.wrapping_mul(a).max(x.wrapping_mul(c));
    end.saturating_sub(start)
}

impl<'a> Image<'a> {
    /// The sum over all places of weight by weight by sample, for place (i, j) of the scaled region.
    fn weighted(self, i: u64, j: u64, k: u64) -> u64 {
        let ([left, upper, w, h], [c, d]) = (self.region, self.size);
        let mut sum = 0u64;
        for y in 0..h {
            for x in 0..w {
                let weight = overlap(i, x, w, c).wrapping_mul(overlap(j, y, h, d));
                let sample = self
                    .picture
                    .at(left.wrapping_add(x), upper.wrapping_add(y), k);
                sum = sum.wrapping_add(weight.wrapping_mul(sample));
            }
        }
        sum
    }

    /// The sample of the scaled region: the mean, a half up.
    fn scaled_at(self, i: u64, j: u64, k: u64) -> u64 {
        let [_, _, w, h] = self.region;
        let area = w.wrapping_mul(h);
        let doubled = self.weighted(i, j, k).wrapping_mul(2).wrapping_add(area);
        doubled.checked_div(area.wrapping_mul(2)).unwrap_or(99_999)
    }

    /// The sample of the image.
    fn at(self, x: u64, y: u64, k: u64) -> u64 {
        let [c, d] = self.size;
        let (right, lower) = (c.wrapping_sub(1), d.wrapping_sub(1));
        let (i, j) = match self.quarters {
            0 => (x, y),
            1 => (y, lower.wrapping_sub(x)),
            2 => (right.wrapping_sub(x), lower.wrapping_sub(y)),
            _ => (right.wrapping_sub(y), x),
        };
        let i = if self.mirror {
            right.wrapping_sub(i)
        } else {
            i
        };
        self.scaled_at(i, j, k)
    }

    /// Its sides.
    pub(crate) fn sides(self) -> (u64, u64) {
        let [c, d] = self.size;
        if self.quarters % 2 == 0 {
            (c, d)
        } else {
            (d, c)
        }
    }

    /// The gray of the image.
    fn gray_at(self, x: u64, y: u64) -> u64 {
        if self.picture.channels == 1 {
            return self.at(x, y, 0);
        }
        let red = self.at(x, y, 0).wrapping_mul(299);
        let green = self.at(x, y, 1).wrapping_mul(587);
        let blue = self.at(x, y, 2).wrapping_mul(114);
        red.wrapping_add(green).wrapping_add(blue).wrapping_add(500) / 1000
    }

    /// Its sample, or that of its gray.
    fn sample(self, x: u64, y: u64, k: u64, is_gray: bool) -> u64 {
        if is_gray {
            self.gray_at(x, y)
        } else {
            self.at(x, y, k)
        }
    }

    /// The rows as they stand in a file: a byte a sample, or two, the low one first.
    fn bytes(self, alloc: Global, is_gray: bool) -> Option<Vec<u8>> {
        let channels = if is_gray { 1 } else { self.picture.channels };
        let (w, h) = self.sides();
        let mut bytes = Vec::new(alloc);
        for y in 0..h {
            for x in 0..w {
                for k in 0..channels {
                    let sample = self.sample(x, y, k, is_gray);
                    bytes.push((sample & 0xff) as u8).ok()?;
                    if self.picture.top > 255 {
                        bytes.push(((sample >> 8) & 0xff) as u8).ok()?;
                    }
                }
            }
        }
        Some(bytes)
    }

    /// The rows as they stand in a file, a bit a place, 1 for white, each row padded to whole bytes.
    fn bits(self, alloc: Global) -> Option<Vec<u8>> {
        let white_from = if self.picture.top > 255 { 32_768 } else { 128 };
        let (w, h) = self.sides();
        let mut bytes = Vec::new(alloc);
        for y in 0..h {
            let mut byte = 0u64;
            for x in 0..w.div_ceil(8).wrapping_mul(8) {
                let is_white = x < w && self.gray_at(x, y) >= white_from;
                byte = (byte.wrapping_mul(2).wrapping_add(u64::from(is_white))) & 0xff;
                if x % 8 == 7 {
                    bytes.push((byte & 0xff) as u8).ok()?;
                    byte = 0;
                }
            }
        }
        Some(bytes)
    }

    /// The strip of its file in a quality.
    pub(crate) fn strip(self, alloc: Global, quality: &str) -> Option<Vec<u8>> {
        match quality {
            "gray" => self.bytes(alloc, true),
            "bitonal" => self.bits(alloc),
            _ => self.bytes(alloc, false),
        }
    }
}
