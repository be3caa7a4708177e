//! The time that the processor has given to this thread: on a machine that does other things too, waiting does not count.

use std::time::Duration;

#[repr(C)]
struct Timespec {
    seconds: i64,
    nanoseconds: i64,
}

extern "C" {
    fn clock_gettime(clock: i32, time: *mut Timespec) -> i32;
}

/// CLOCK_THREAD_CPUTIME_ID of Linux.
const THREAD: i32 = 3;

pub fn processor_time() -> Duration {
    let mut time = Timespec { seconds: 0, nanoseconds: 0 };
    // Sound: the C library fills one struct of two 64-bit numbers, which this is on 64-bit Linux.
    let status = unsafe { clock_gettime(THREAD, &mut time) };
    assert_eq!(status, 0, "no clock for the processor time of a thread");
    Duration::new(time.seconds as u64, time.nanoseconds as u32)
}
