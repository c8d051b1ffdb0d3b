//! The time of a call: the processor time of the fastest of many rounds, so that whatever else the machine does counts least.

use std::hint::black_box;

const ROUNDS: usize = 31;

#[repr(C)]
struct Timespec {
    seconds: i64,
    nanoseconds: i64,
}

// As Linux numbers it on x86-64.
const CLOCK_THREAD_CPUTIME_ID: i32 = 3;

unsafe extern "C" {
    fn clock_gettime(clock: i32, time: *mut Timespec) -> i32;
}

// The processor time of this thread, in seconds.
fn now() -> f64 {
    let mut time = Timespec {
        seconds: 0,
        nanoseconds: 0,
    };
    let status = unsafe { clock_gettime(CLOCK_THREAD_CPUTIME_ID, &mut time) };
    assert_eq!(status, 0, "there is no clock of processor time");
    time.seconds as f64 + time.nanoseconds as f64 * 1e-9
}

// What is answered is given back after the clock has stopped.
fn once<R>(run: impl FnOnce() -> R) -> f64 {
    let start = now();
    let answer = black_box(run());
    let time = now() - start;
    drop(answer);
    time
}

/// The fastest round of one call, in seconds.
pub fn fastest<R>(mut run: impl FnMut() -> R) -> f64 {
    (0..ROUNDS).map(|_| once(&mut run)).fold(f64::MAX, f64::min)
}

/// The fastest rounds of two calls, made in turns, so that both see the same machine.
pub fn in_turns<A, B>(first: impl FnMut() -> A, mut second: impl FnMut() -> B) -> (f64, f64) {
    in_turns_given(first, || (), |()| second())
}

/// The same, where the second call takes something over that is made for each round before the clock starts.
pub fn in_turns_given<A, B, T>(
    mut first: impl FnMut() -> A,
    mut made: impl FnMut() -> T,
    mut second: impl FnMut(T) -> B,
) -> (f64, f64) {
    let mut best = (f64::MAX, f64::MAX);
    for _ in 0..ROUNDS {
        best.0 = best.0.min(once(&mut first));
        let given = made();
        best.1 = best.1.min(once(|| second(given)));
    }
    best
}
