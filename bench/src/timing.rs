//! Nanoseconds of one call: the best of several samples.

use std::time::{Duration, Instant};

/// Samples of each measure, and how long one takes at least.
const SAMPLES: usize = 15;
const SAMPLE: Duration = Duration::from_millis(3);

/// Runs of a call that is a process.
const RUNS: usize = 200;

/// Runs a call so many times and tells how long that took.
pub type Timed<'a> = Box<dyn FnMut(usize) -> Duration + 'a>;

/// A call that needs no preparation.
pub fn repeated<'a, R>(mut call: impl FnMut() -> R + 'a) -> Timed<'a> {
    Box::new(move |times| {
        let start = Instant::now();
        for _ in 0..times {
            std::hint::black_box(call());
        }
        start.elapsed()
    })
}

/// A call that uses up an input, which is made before the clock starts.
pub fn consuming<'a, I, R>(
    mut make: impl FnMut() -> I + 'a,
    mut call: impl FnMut(I) -> R + 'a,
) -> Timed<'a> {
    Box::new(move |times| {
        let inputs: Vec<I> = (0..times).map(|_| make()).collect();
        let start = Instant::now();
        for input in inputs {
            std::hint::black_box(call(input));
        }
        start.elapsed()
    })
}

/// How many calls fill one sample.
fn calls(timed: &mut Timed<'_>) -> usize {
    let mut times = 1;
    while timed(times) < SAMPLE && times < 1 << 16 {
        times *= 2;
    }
    times
}

/// The best sample of each.
pub fn best(all: &mut [Timed<'_>]) -> Vec<f64> {
    let times: Vec<usize> = all.iter_mut().map(calls).collect();
    least(all, &times, SAMPLES)
}

/// The best of single calls, each a process.
pub fn best_run(all: &mut [Timed<'_>]) -> Vec<f64> {
    least(all, &vec![1; all.len()], RUNS)
}

/// The best of so many samples, those of all taken in turn.
fn least(all: &mut [Timed<'_>], times: &[usize], samples: usize) -> Vec<f64> {
    let mut least = vec![f64::INFINITY; all.len()];
    for _ in 0..samples {
        for (i, timed) in all.iter_mut().enumerate() {
            let taken = timed(times[i]).as_nanos() as f64 / times[i] as f64;
            least[i] = least[i].min(taken);
        }
    }
    least
}
