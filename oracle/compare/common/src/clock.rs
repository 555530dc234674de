//! Times of single calls, by the processor's ticks.

use std::arch::x86_64::_mm_lfence;
use std::arch::x86_64::_rdtsc;
use std::hint::black_box;
use std::time::Duration;
use std::time::Instant;

pub struct Clock {
    ticks_per_ns: f64,
    /// What an empty call takes.
    overhead: f64,
}

impl Clock {
    pub fn calibrated() -> Clock {
        let mut clock = Clock { ticks_per_ns: ticks_per_ns(), overhead: 0.0 };
        clock.overhead = clock.time(10_000, || (), |()| ());
        clock
    }

    /// The time of a call in nanoseconds, without those of making its state and of dropping its result.
    pub fn time<S, T>(&self, repeats: usize, state: impl Fn() -> S, mut call: impl FnMut(&mut S) -> T) -> f64 {
        let times = (0..repeats).map(|_| {
            let mut state = state();
            let start = ticks();
            let result = black_box(call(&mut state));
            let end = ticks();
            drop(result);
            (end - start) as f64 / self.ticks_per_ns
        });
        middle(times.collect()) - self.overhead
    }
}

pub fn median(mut values: Vec<f64>) -> f64 {
    values.sort_unstable_by(f64::total_cmp);
    values[values.len() / 2]
}

/// The mean of the middle half. A tick of the clock may be longer than a call: the mean of many
/// calls is finer than their median.
fn middle(mut values: Vec<f64>) -> f64 {
    values.sort_unstable_by(f64::total_cmp);
    let quarter = values.len() / 4;
    let half = &values[quarter..values.len() - quarter];
    half.iter().sum::<f64>() / half.len() as f64
}

fn ticks() -> u64 {
    // SAFETY: every x86-64 processor has these instructions.
    unsafe {
        _mm_lfence();
        let ticks = _rdtsc();
        _mm_lfence();
        ticks
    }
}

fn ticks_per_ns() -> f64 {
    let (start, first) = (Instant::now(), ticks());
    while start.elapsed() < Duration::from_millis(100) {}
    (ticks() - first) as f64 / start.elapsed().as_nanos() as f64
}
