//! The processor time of this thread. The wall clock would time what else runs on the machine as well; nothing timed here waits for
//! anything, so on an idle machine the two are the same.

#[repr(C)]
#[derive(Default)]
struct Time {
    seconds: i64,
    nanoseconds: i64,
}

unsafe extern "C" {
    fn clock_gettime(clock: i32, time: *mut Time) -> i32;
}

/// CLOCK_THREAD_CPUTIME_ID of Linux.
const OF_THIS_THREAD: i32 = 3;

pub fn nanoseconds() -> f64 {
    let mut time = Time::default();
    // SAFETY: `Time` is the C library's struct timespec of 64-bit Linux.
    let status = unsafe { clock_gettime(OF_THIS_THREAD, &mut time) };
    assert_eq!(status, 0, "no clock of the thread's processor time");
    time.seconds as f64 * 1e9 + time.nanoseconds as f64
}
