//! The processor time of this thread: on a shared machine, what others run in between is not counted.

use std::time::Duration;

/// `struct timespec` of 64-bit Linux, the one system that the static library is built for.
#[repr(C)]
struct Timespec {
    seconds: i64,
    nanoseconds: i64,
}

/// `CLOCK_THREAD_CPUTIME_ID` of Linux.
const THREAD_TIME: i32 = 3;

unsafe extern "C" {
    fn clock_gettime(clock: i32, time: *mut Timespec) -> i32;
}

pub fn thread_time() -> Duration {
    let mut now = Timespec { seconds: 0, nanoseconds: 0 };
    // SAFETY: the pointer is to a timespec that lives through the call.
    let failed = unsafe { clock_gettime(THREAD_TIME, &mut now) };
    assert_eq!(failed, 0, "the system has no clock of a thread's time");
    Duration::new(now.seconds as u64, now.nanoseconds as u32)
}
