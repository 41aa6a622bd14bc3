//! The clock: what the processor spent on this thread, so that others who have the machine meanwhile are not counted.

use std::time::Duration;

const THREAD_CPUTIME: i32 = 3;

extern "C" {
    fn clock_gettime(clock: i32, time: *mut [i64; 2]) -> i32;
}

pub fn processor_time() -> Duration {
    let mut time = [0; 2];
    // Two numbers, seconds and nanoseconds, are all that it writes.
    let failed = unsafe { clock_gettime(THREAD_CPUTIME, &mut time) };
    assert_eq!(failed, 0, "no clock");
    Duration::new(time[0] as u64, time[1] as u32)
}
