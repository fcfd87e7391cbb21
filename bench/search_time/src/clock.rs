//! Two clocks for one piece of work: the time that passed, and the time that
//! the processor gave to this thread, which other work on the machine does not
//! lengthen.

use std::time::{Duration, Instant};

/// Seconds and nanoseconds, as Linux has them on machines of 64 bits.
#[repr(C)]
#[derive(Default)]
struct Timespec {
    seconds: i64,
    nanoseconds: i64,
}

/// Linux's number of a thread's own clock.
const THREAD: i32 = 3;

unsafe extern "C" {
    fn clock_gettime(clock: i32, now: *mut Timespec) -> i32;
}

fn given() -> Duration {
    let mut now = Timespec::default();
    // It writes the two numbers, and nothing else.
    let failed = unsafe { clock_gettime(THREAD, &mut now) };
    assert_eq!(failed, 0, "Linux has a clock for each thread");
    Duration::new(now.seconds as u64, now.nanoseconds as u32)
}

/// Microseconds of one piece of work.
#[derive(Clone, Copy)]
pub struct Time {
    pub passed: f64,
    pub given: f64,
}

/// What the work answers, and its time.
pub fn timed<T>(work: impl FnOnce() -> T) -> (T, Time) {
    let (begin, before) = (Instant::now(), given());
    let answer = work();
    let (after, passed) = (given(), begin.elapsed());
    let time = Time {
        passed: passed.as_secs_f64() * 1e6,
        given: (after - before).as_secs_f64() * 1e6,
    };
    (answer, time)
}
