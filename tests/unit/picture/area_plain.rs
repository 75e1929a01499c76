//! The plain way, to compare with: place by place, by the definition. A weight is counted part by part, and every place of
//! the part is gone through. Sums wrap, so that nothing is to be proved of them.

use crate::fixtures::rasters::sample_or_zero;
use iiif_pixel::{Dim, Raster, Rect};

/// How many of the `a * c` parts of a line lie both in result column `i` (`a` parts each) and in source column `x` (`c`
/// parts each).
fn counted_weight(i: u32, x: u32, a: u32, c: u32) -> u64 {
    let mut count = 0u64;
    for part in 0..u64::from(a) * u64::from(c) {
        let in_result = a > 0 && part / u64::from(a) == u64::from(i);
        let in_source = c > 0 && part / u64::from(c) == u64::from(x);
        if in_result && in_source {
            count = count.wrapping_add(1);
        }
    }
    count
}

/// The sum at result place (`i`, `j`) in a channel over those places of a region that `at` has too, both in the picture's
/// columns and rows.
pub(crate) fn sum_at(
    picture: &Raster,
    at: Rect,
    region: Rect,
    size: Dim,
    i: u32,
    j: u32,
    channel: usize,
) -> u64 {
    let mut sum = 0u64;
    for y in 0..region.h {
        for x in 0..region.w {
            let (column, row) = (region.x.wrapping_add(x), region.y.wrapping_add(y));
            let held = column >= at.x
                && column < at.x.wrapping_add(at.w)
                && row >= at.y
                && row < at.y.wrapping_add(at.h);
            if held {
                let weight = counted_weight(i, x, region.w, size.w).wrapping_mul(counted_weight(
                    j, y, region.h, size.h,
                ));
                sum = sum.wrapping_add(weight.wrapping_mul(sample_or_zero(
                    picture, column, row, channel,
                )));
            }
        }
    }
    sum
}

/// The average of a sum over a whole region, to the nearest, a half up: the greatest number of 16 bits that is no further
/// above it than a half.
pub(crate) fn average(region: Rect, sum: u64) -> u64 {
    let area = u64::from(region.w) * u64::from(region.h);
    let mut least = 0u64;
    for step in [
        32_768u64, 16_384, 8192, 4096, 2048, 1024, 512, 256, 128, 64, 32, 16, 8, 4, 2, 1,
    ] {
        let value = least.wrapping_add(step);
        // value - 1/2 <= sum / area
        if value.wrapping_mul(2).wrapping_mul(area) <= sum.wrapping_mul(2).wrapping_add(area) {
            least = value;
        }
    }
    least
}
