//! Drives the proved library and the plain one over the same inputs and prints any difference in an answer, a place
//! or a byte of a lent buffer.

mod building;
mod cases;
mod choosing;
mod damage;
mod elements;
mod filters;
mod input;
mod lines;
mod random;
mod reading;
mod rebuild;
mod record;
mod report;
mod shape;
mod sites;
mod turns;

use std::panic::{catch_unwind, AssertUnwindSafe};
use std::process::ExitCode;
use std::time::{Duration, Instant};

use report::Report;

const USAGE: &str = "usage: differential (--inputs N | --seconds T | --case C) [--seed S]";

/// When to stop.
enum Until {
    Inputs(u64),
    Seconds(u64),
    /// After one case, to look at a difference again.
    Case(u64),
}

fn main() -> ExitCode {
    let Some((until, seed)) = order(std::env::args().skip(1)) else {
        eprintln!("{USAGE}");
        return ExitCode::from(2);
    };
    println!("seed {seed}");
    let mut report = Report::new(seed);
    match until {
        Until::Inputs(inputs) => run_while(&mut report, seed, |report| report.inputs() < inputs),
        Until::Seconds(seconds) => {
            let stop = Instant::now() + Duration::from_secs(seconds);
            run_while(&mut report, seed, |_| Instant::now() < stop);
        }
        Until::Case(case) => run_case(&mut report, seed, case),
    }
    print!("{report}");
    ExitCode::from((report.differences() > 0) as u8)
}

/// The wanted end and the seed, 1 unless it is given.
fn order(mut words: impl Iterator<Item = String>) -> Option<(Until, u64)> {
    let (mut until, mut seed) = (None, 1);
    while let Some(word) = words.next() {
        let number = words.next()?.parse().ok()?;
        match word.as_str() {
            "--inputs" => until = Some(Until::Inputs(number)),
            "--seconds" => until = Some(Until::Seconds(number)),
            "--case" => until = Some(Until::Case(number)),
            "--seed" => seed = number,
            _ => return None,
        }
    }
    Some((until?, seed))
}

fn run_while(report: &mut Report, seed: u64, goes_on: impl Fn(&Report) -> bool) {
    for case in 0.. {
        if !goes_on(report) {
            break;
        }
        run_case(report, seed, case);
    }
}

/// A panic in either library is a difference too.
fn run_case(report: &mut Report, seed: u64, case: u64) {
    if catch_unwind(AssertUnwindSafe(|| cases::run(report, seed, case))).is_err() {
        report.differ(&"", format_args!("a panic"));
    }
}
