//! The processor time of this thread, so that what else runs on the machine
//! counts for nothing.

#[repr(C)]
struct Timespec {
    seconds: i64,
    nanoseconds: i64,
}

/// Linux's number of the clock.
const THREAD_CPUTIME: i32 = 3;

extern "C" {
    fn clock_gettime(clock: i32, time: *mut Timespec) -> i32;
}

/// Milliseconds of processor time since the thread began.
pub fn milliseconds() -> f64 {
    let mut time = Timespec {
        seconds: 0,
        nanoseconds: 0,
    };
    // SAFETY: the C library fills the struct, which has the layout of its
    // `struct timespec` on 64-bit Linux.
    let done = unsafe { clock_gettime(THREAD_CPUTIME, &mut time) };
    assert_eq!(done, 0, "no such clock");
    time.seconds as f64 * 1e3 + time.nanoseconds as f64 / 1e6
}
