//! The line programs: both read one large file, run by turns as processes.

use std::fs::{self, File};
use std::path::Path;
use std::process::{Command, Stdio};
use std::time::Instant;

use crate::record::Record;
use crate::timing::Times;

/// So many that the start of a process hardly counts.
const LINES: usize = 100_000;
const RUNS: usize = 9;

/// Microseconds for a line, of each of two commands.
pub fn times(folder: &Path, record: &Record, commands: [&str; 2]) -> [Times; 2] {
    let input = folder.join("lines.hex");
    fs::write(&input, record.lines(LINES)).expect("a file of lines");
    let outputs = [folder.join("ours.out"), folder.join("plain.out")];
    let mut samples = [Vec::new(), Vec::new()];
    for _ in 0..RUNS {
        for (number, command) in commands.iter().enumerate() {
            samples[number].push(run(command, &input, &outputs[number]));
        }
    }
    let [ours, plain] = outputs.map(|output| fs::read(output).expect("an output"));
    fs::remove_file(input).expect("the file of lines, which is large");
    assert_eq!(ours.iter().filter(|&&byte| byte == b'\n').count(), LINES);
    assert!(ours == plain, "the line programs differ");
    samples.map(Times::of)
}

/// Runs a command of some words from one file to another; gives the microseconds for a line.
fn run(command: &str, input: &Path, output: &Path) -> f64 {
    let mut words = command.split_whitespace();
    let mut process = Command::new(words.next().expect("a command"));
    process.args(words).stdin(File::open(input).expect("the lines"));
    let start = Instant::now();
    let status = process.stdout(Stdio::from(File::create(output).expect("a file"))).status().expect("a run");
    assert!(status.success(), "{command} fails");
    start.elapsed().as_secs_f64() * 1e6 / LINES as f64
}
