//! Rounds in turn and their medians, by the processor's time for this thread, so that other work on the machine counts
//! less.

use std::fmt::Write;
use std::hint::black_box;

/// A way to do something so many times: makes what it needs, and is then timed.
pub type Way<'a> = Box<dyn FnMut() -> Box<dyn FnMut()> + 'a>;

const ROUNDS: usize = 21;

/// The median time of each way in nanoseconds for one of so many times; the ways take turns.
pub fn medians(times: usize, ways: &mut [Way]) -> Vec<f64> {
    let mut seen = vec![Vec::with_capacity(ROUNDS); ways.len()];
    for _ in 0..ROUNDS {
        for (way, seen) in ways.iter_mut().zip(&mut seen) {
            let mut run = way();
            let began = now();
            run();
            seen.push((now() - began) / times as f64);
            black_box(&mut run);
        }
    }
    seen.into_iter().map(median).collect()
}

fn median(mut times: Vec<f64>) -> f64 {
    times.sort_by(f64::total_cmp);
    times[times.len() / 2]
}

/// The time that the processor has given this thread, in nanoseconds. The archives are for Linux on x86-64, whose C
/// library has this function.
fn now() -> f64 {
    #[repr(C)]
    struct Time {
        seconds: i64,
        nanoseconds: i64,
    }
    unsafe extern "C" {
        fn clock_gettime(clock: i32, time: *mut Time) -> i32;
    }
    const THREAD: i32 = 3;
    let mut time = Time { seconds: 0, nanoseconds: 0 };
    // SAFETY: the time is the C library's `struct timespec` and outlives the call.
    let failed = unsafe { clock_gettime(THREAD, &raw mut time) };
    assert_eq!(failed, 0, "this thread has a clock");
    time.seconds as f64 * 1e9 + time.nanoseconds as f64
}

/// A line of a table: what was timed, the times, and ratios of the second to the first of the pairs named.
pub fn line(name: &str, size: &str, times: &[f64], ratios: &[(usize, usize)]) -> String {
    let mut line = format!("| {name} | {size} |");
    for time in times {
        let digits = if *time < 100.0 { 1 } else { 0 };
        write!(line, " {time:.digits$} |").expect("a line");
    }
    for &(rust, port) in ratios {
        write!(line, " {:.2} |", times[port] / times[rust]).expect("a line");
    }
    line
}
