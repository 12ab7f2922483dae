//! Timing: two ways to do one thing, run by turns so that whatever else the machine does falls on both.

use std::hint::black_box;
use std::time::Instant;

/// Microseconds for one call: the median of many samples, and the least.
#[derive(Clone, Copy)]
pub struct Times {
    pub median: f64,
    pub least: f64,
}

/// Samples that a task takes of each way.
const SAMPLES: usize = 301;
/// Microseconds that a sample takes at least, so that the clock's own time doesn't show.
const SAMPLE: f64 = 300.0;

impl Times {
    pub fn of(mut samples: Vec<f64>) -> Times {
        samples.sort_by(f64::total_cmp);
        Times { median: samples[samples.len() / 2], least: samples[0] }
    }
}

/// Microseconds that a call takes, as the mean of some calls in a row.
fn sample<A>(calls: usize, call: &mut impl FnMut() -> A) -> f64 {
    let start = Instant::now();
    for _ in 0..calls {
        black_box(call());
    }
    start.elapsed().as_secs_f64() * 1e6 / calls as f64
}

/// The calls that make a sample long enough.
fn calls_for<A>(call: &mut impl FnMut() -> A) -> usize {
    let mut calls = 1;
    while sample(calls, call) * (calls as f64) < SAMPLE {
        calls *= 2;
    }
    calls
}

/// Times both ways by turns, after each has run often enough to be warm.
pub fn by_turns<A, B>(mut ours: impl FnMut() -> A, mut plain: impl FnMut() -> B) -> [Times; 2] {
    let (our_calls, plain_calls) = (calls_for(&mut ours), calls_for(&mut plain));
    let (mut our_samples, mut plain_samples) = (Vec::new(), Vec::new());
    for _ in 0..SAMPLES {
        our_samples.push(sample(our_calls, &mut ours));
        plain_samples.push(sample(plain_calls, &mut plain));
    }
    [Times::of(our_samples), Times::of(plain_samples)]
}
