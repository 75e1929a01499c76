//! What the plain Rust of `bench/area`, `bench/pixel` and `bench/write` has in common: samples that look random, and their check sum.
#![allow(dead_code)] // each program takes its part

/// A sample of 8 or of 16 bits.
pub trait Sample: Copy + Default + Into<u32> + Into<u64> {
    const TOP: u64;

    /// The high bits of a number.
    fn high(number: u32) -> Self;

    /// The low bits of a number.
    fn low(number: u64) -> Self;
}

macro_rules! sample {
    ($kind:ty) => {
        impl Sample for $kind {
            const TOP: u64 = <$kind>::MAX as u64;

            fn high(number: u32) -> $kind {
                (number >> (32 - <$kind>::BITS)) as $kind
            }

            fn low(number: u64) -> $kind {
                number as $kind
            }
        }
    };
}

sample!(u8);
sample!(u16);

/// Samples that look random, the same in each run: of both depths the high bits of the same numbers.
pub fn pattern<T: Sample>(count: usize) -> Vec<T> {
    let mut state = 12345u32;
    (0..count)
        .map(|_| {
            state = state.wrapping_mul(1_664_525).wrapping_add(1_013_904_223);
            T::high(state)
        })
        .collect()
}

pub fn check_sum<T: Sample>(samples: &[T]) -> u64 {
    samples.iter().fold(0, |sum, &sample| u64::wrapping_add(u64::wrapping_mul(sum, 31), sample.into()))
}
