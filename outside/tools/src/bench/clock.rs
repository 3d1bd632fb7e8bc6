//! The processor's time for this thread. On a machine that is shared, the turns of other programs do
//! not count; on one that is idle, it passes like any other.

/// A time as the C library of Linux on x86-64 gives it.
#[repr(C)]
struct Timespec {
    seconds: i64,
    nanoseconds: i64,
}

/// The clock's number in the same library.
const THREAD_PROCESSOR_TIME: i32 = 3;

extern "C" {
    fn clock_gettime(clock: i32, time: *mut Timespec) -> i32;
}

/// The time so far, in nanoseconds.
pub fn now() -> f64 {
    let mut time = Timespec {
        seconds: 0,
        nanoseconds: 0,
    };
    // SAFETY: the pointer leads to a time as the library writes it, which is not used elsewhere.
    let status = unsafe { clock_gettime(THREAD_PROCESSOR_TIME, &mut time) };
    assert_eq!(status, 0, "the clock cannot be read");
    time.seconds as f64 * 1e9 + time.nanoseconds as f64
}
