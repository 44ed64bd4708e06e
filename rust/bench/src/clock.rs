//! The processor time of this thread. On a shared machine it says more than
//! the wall clock: time in which other programs run does not count.

use std::time::Duration;

/// A time as the C library gives it, on 64-bit Linux.
#[repr(C)]
struct Timespec {
    seconds: i64,
    nanoseconds: i64,
}

extern "C" {
    fn clock_gettime(clock: i32, time: *mut Timespec) -> i32;
}

/// The clock of the calling thread's processor time, on Linux.
const THREAD: i32 = 3;

/// The processor time that this thread has used.
pub fn now() -> Duration {
    let mut time = Timespec {
        seconds: 0,
        nanoseconds: 0,
    };
    let status = unsafe { clock_gettime(THREAD, &mut time) };
    assert_eq!(status, 0, "the thread's clock cannot be read");
    Duration::new(time.seconds as u64, time.nanoseconds as u32)
}
