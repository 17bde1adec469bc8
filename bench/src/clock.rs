//! The processor's time of this thread: what else the machine does counts only by the caches that it takes.

extern "C" {
    fn clock_gettime(clock: i32, time: *mut Time) -> i32;
}

#[repr(C)]
struct Time {
    seconds: i64,
    nanoseconds: i64,
}

/// The number of this clock on Linux.
const THREAD_CPU_TIME: i32 = 3;

/// In µs, from any start.
pub fn now() -> f64 {
    let mut time = Time { seconds: 0, nanoseconds: 0 };
    let read = unsafe { clock_gettime(THREAD_CPU_TIME, &mut time) };
    assert_eq!(read, 0);
    time.seconds as f64 * 1e6 + time.nanoseconds as f64 / 1e3
}

pub fn median(mut times: Vec<f64>) -> f64 {
    times.sort_by(f64::total_cmp);
    times[times.len() / 2]
}
