//! Times of one thing done several times: the processor's, so that what else the machine does counts less.

use std::time::Duration;

/// Linux: the clock of the time that this process has had.
const PROCESS: i32 = 2;

#[repr(C)]
struct Timespec {
    seconds: i64,
    nanoseconds: i64,
}

unsafe extern "C" {
    fn clock_gettime(clock: i32, time: *mut Timespec) -> i32;
}

fn now() -> Duration {
    let mut time = Timespec { seconds: 0, nanoseconds: 0 };
    // The clock is there, and writes one time.
    let answer = unsafe { clock_gettime(PROCESS, &mut time) };
    assert_eq!(answer, 0, "no such clock");
    Duration::new(time.seconds as u64, time.nanoseconds as u32)
}

/// Adds the time that this takes.
pub fn once<T>(times: &mut Vec<Duration>, mut call: impl FnMut() -> T) -> T {
    let before = now();
    let result = std::hint::black_box(call());
    times.push(now() - before);
    result
}

/// In milliseconds.
pub fn median(mut times: Vec<Duration>) -> f64 {
    times.sort();
    times[times.len() / 2].as_secs_f64() * 1e3
}
