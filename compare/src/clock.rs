//! The processor time of this thread, which other work on the machine does not lengthen.

/// CLOCK_THREAD_CPUTIME_ID of Linux.
const THREAD: i32 = 3;

#[repr(C)]
struct Time {
    seconds: i64,
    nanoseconds: i64,
}

unsafe extern "C" {
    fn clock_gettime(clock: i32, time: *mut Time) -> i32;
}

pub fn thread_seconds() -> f64 {
    let mut t = Time { seconds: 0, nanoseconds: 0 };
    // SAFETY: `t` is good for writing during the call.
    assert_eq!(unsafe { clock_gettime(THREAD, &mut t) }, 0);
    t.seconds as f64 + 1e-9 * t.nanoseconds as f64
}
