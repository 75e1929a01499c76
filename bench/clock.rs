//! The clock of the plain Rust of these folders.

use std::time::Duration;

extern "C" {
    fn clock_gettime(id: i32, time: *mut [i64; 2]) -> i32;
}

/// The processor time of this thread (CLOCK_THREAD_CPUTIME_ID of Linux).
pub fn cpu() -> Duration {
    let mut time = [0i64; 2];
    unsafe { clock_gettime(3, &mut time) };
    Duration::new(time[0] as u64, time[1] as u32)
}
