//! Times of programs that take turns.

use std::ffi::{c_int, c_long};
use std::time::Duration;

pub const ROUNDS: usize = 5;

/// Lets the C library keep all memory that was ever taken. Else what a program
/// pays for large blocks depends on what others hold above them on the heap: ldns
/// took 8 microseconds or 0.8 for the same line.
pub fn keep_memory() {
    extern "C" {
        fn mallopt(option: c_int, value: c_int) -> c_int;
    }
    const TRIM_THRESHOLD: c_int = -1;
    const MMAP_THRESHOLD: c_int = -3;
    // SAFETY: the C library only notes the two numbers.
    let kept = unsafe { mallopt(TRIM_THRESHOLD, c_int::MAX) + mallopt(MMAP_THRESHOLD, 32 << 20) };
    assert_eq!(kept, 2, "the C library takes both options");
}

/// Nanoseconds of one pass, for each of so many programs: the median of its
/// rounds. All have their turn in each round, so that a busy machine slows all.
pub fn in_turns(programs: usize, round: Duration, mut pass: impl FnMut(usize)) -> Vec<f64> {
    let passes: Vec<u32> = (0..programs).map(|program| filling(round, || pass(program))).collect();
    let mut times = vec![Vec::new(); programs];
    for _ in 0..ROUNDS {
        for program in 0..programs {
            times[program].push(time(passes[program], || pass(program)));
        }
    }
    times.into_iter().map(median).collect()
}

/// How many passes fill a round, from so many as take a tenth of it.
fn filling(round: Duration, mut pass: impl FnMut()) -> u32 {
    let round = round.as_nanos() as f64;
    let mut passes = 1;
    loop {
        let one = time(passes, &mut pass).max(1.0);
        if one * f64::from(passes) * 10.0 >= round {
            return (round / one).max(1.0) as u32;
        }
        passes *= 2;
    }
}

/// Nanoseconds of one pass, from so many.
fn time(passes: u32, mut pass: impl FnMut()) -> f64 {
    let start = processor_time();
    for _ in 0..passes {
        pass();
    }
    (processor_time() - start) / f64::from(passes)
}

/// Nanoseconds that this thread has run: what other programs take of a shared
/// processor does not count.
fn processor_time() -> f64 {
    #[repr(C)]
    struct Time {
        seconds: i64,
        nanoseconds: c_long,
    }
    extern "C" {
        fn clock_gettime(clock: c_int, time: *mut Time) -> c_int;
    }
    const THREAD: c_int = 3;
    let mut time = Time { seconds: 0, nanoseconds: 0 };
    // SAFETY: the C library writes the time to a struct of its own form.
    let failed = unsafe { clock_gettime(THREAD, &mut time) };
    assert_eq!(failed, 0, "the thread has a clock");
    time.seconds as f64 * 1e9 + time.nanoseconds as f64
}

fn median(mut times: Vec<f64>) -> f64 {
    times.sort_by(f64::total_cmp);
    times[times.len() / 2]
}
