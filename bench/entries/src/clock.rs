//! The processor's time of this thread. Unlike the wall clock it stands still while other programs have the processor,
//! which on a busy machine meets long calls more than short ones.

/// `struct timespec` of Linux on 64 bits.
#[repr(C)]
struct Time {
    seconds: i64,
    nanoseconds: i64,
}

/// CLOCK_THREAD_CPUTIME_ID of Linux.
const THREAD: i32 = 3;

unsafe extern "C" {
    fn clock_gettime(clock: i32, time: *mut Time) -> i32;
}

/// Nanoseconds from some start.
pub fn now() -> f64 {
    let mut time = Time { seconds: 0, nanoseconds: 0 };
    // SAFETY: the C library writes one `struct timespec`, and `time` is one.
    let failed = unsafe { clock_gettime(THREAD, &mut time) };
    assert_eq!(failed, 0, "this system has no clock for a thread's time");
    time.seconds as f64 * 1e9 + time.nanoseconds as f64
}
