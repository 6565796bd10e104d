//! This thread's processor time, which other work on the machine doesn't count in.

use std::hint::black_box;

#[repr(C)]
struct Timespec {
    seconds: i64,
    nanoseconds: i64,
}

unsafe extern "C" {
    fn clock_gettime(clock: i32, time: *mut Timespec) -> i32;
}

const THREAD_PROCESSOR_TIME: i32 = 3;

/// Nanoseconds of processor time that this thread has used.
pub fn now() -> f64 {
    let mut time = Timespec {
        seconds: 0,
        nanoseconds: 0,
    };
    // SAFETY: the time is ours and lives through the call.
    let failed = unsafe { clock_gettime(THREAD_PROCESSOR_TIME, &mut time) };
    assert_eq!(failed, 0, "the clock can't be read");
    time.seconds as f64 * 1e9 + time.nanoseconds as f64
}

/// Nanoseconds that an action takes; what it gives is dropped when the clock has been read.
pub fn time<T>(action: impl FnOnce() -> T) -> f64 {
    let start = now();
    let given = black_box(action());
    let time = now() - start;
    drop(given);
    time
}

pub fn median(mut times: Vec<f64>) -> f64 {
    times.sort_by(f64::total_cmp);
    times[times.len() / 2]
}

pub fn least(times: &[f64]) -> f64 {
    times.iter().copied().fold(f64::INFINITY, f64::min)
}
