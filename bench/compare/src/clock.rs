//! Time that this thread has a processor: other work on the machine counts only as far as it slows memory and caches. No side works in
//! another thread or waits for a disk.

use std::time::Duration;

#[repr(C)]
struct Timespec {
    seconds: i64,
    nanoseconds: i64,
}

extern "C" {
    fn clock_gettime(clock: i32, time: *mut Timespec) -> i32;
}

const CLOCK_THREAD_CPUTIME_ID: i32 = 3;

fn now() -> Duration {
    let mut time = Timespec { seconds: 0, nanoseconds: 0 };
    // SAFETY: it writes one timespec, as it is laid out on 64-bit Linux.
    let answer = unsafe { clock_gettime(CLOCK_THREAD_CPUTIME_ID, &mut time) };
    assert_eq!(answer, 0, "the clock is there");
    Duration::new(time.seconds as u64, time.nanoseconds as u32)
}

/// The answer, and how many nanoseconds it took.
pub fn timed<T>(work: impl FnOnce() -> T) -> (T, f64) {
    let start = now();
    let answer = work();
    (answer, (now() - start).as_nanos() as f64)
}
