//! Times the proved library beside the plain one, and beside htslib where that is installed, and prints a table.
//!
//! The arguments name a folder for files and, if they are there, the program that times htslib and the line programs:
//! `bench FOLDER [htslib=PROGRAM] [ours=PROGRAM] [plain=PROGRAM]`.

mod lines;
mod record;
mod tasks;
mod timing;

use std::collections::HashMap;
use std::path::{Path, PathBuf};
use std::process::Command;

use record::Record;
use tasks::{building, choosing, fetching, printing, reading, tallying, Task};
use timing::Times;

fn main() {
    let mut words = std::env::args().skip(1);
    let folder =
        PathBuf::from(words.next().expect("usage: bench FOLDER [htslib=PROGRAM] [ours=PROGRAM] [plain=PROGRAM]"));
    let programs: HashMap<String, String> =
        words.filter_map(|word| word.split_once('=').map(|(name, program)| (name.into(), program.into()))).collect();
    println!(
        "{:<46} {:>17} {:>17} {:>6} {:>17} {:>6}",
        "microseconds: median (least)", "ours", "plain", "o/p", "htslib", "o/h"
    );
    for task in tasks() {
        let htslib = programs.get("htslib").map(|program| time_htslib(program, &folder, &task));
        print_line(task.name, task.times, htslib);
    }
    match (programs.get("ours"), programs.get("plain")) {
        (Some(ours), Some(plain)) => {
            let times = lines::times(&folder, &Record::new(100, 0, true), [ours, plain]);
            print_line("bcflines, a line of 100 people, GT DP GQ", times, None);
        }
        _ => println!("bcflines is not compared: the proved program isn't built"),
    }
    if !programs.contains_key("htslib") {
        println!("htslib is not compared: it isn't installed");
    }
}

fn tasks() -> [Task; 11] {
    let full = || Record::new(10_000, 0, true);
    [
        reading("read, 10,000 people, GT DP GQ", full()),
        fetching("read, then each FORMAT field, 10,000 people", full()),
        tallying("read + tally, 10,000 people, GT DP GQ", full()),
        tallying("read + tally, 10,000 people, GT", Record::new(10_000, 0, false)),
        tallying("read + tally, 10,000 people, GT, half haploid", Record::new(10_000, 2, false)),
        choosing("choose, 40 gone of 10,000, GT DP GQ", full()),
        building("build, 10,000 people, GT DP GQ", full()),
        printing("VCF line, 10,000 people, GT", Record::new(10_000, 0, false)),
        printing("VCF line, 10,000 people, GT, half haploid", Record::new(10_000, 2, false)),
        tallying("read + tally, 100 people, GT DP GQ", Record::new(100, 0, true)),
        tallying("read + tally, 100 people, GT", Record::new(100, 0, false)),
    ]
}

fn print_line(name: &str, [ours, plain]: [Times; 2], htslib: Option<Times>) {
    let show = |times: Times| format!("{:.2} ({:.2})", times.median, times.least);
    let ratio = |other: Times| format!("{:.2}", ours.median / other.median);
    let (beside, beside_ratio) = htslib.map_or(("-".into(), "-".into()), |times| (show(times), ratio(times)));
    println!("{name:<46} {:>17} {:>17} {:>6} {beside:>17} {beside_ratio:>6}", show(ours), show(plain), ratio(plain));
}

/// Bytes of records in a file for htslib, and of those that it is timed over at once, long enough for the clock.
const FILE: usize = 8 << 20;
const SAMPLE: usize = 512 << 10;

/// Has htslib do a task over a file of the same record, and takes its two numbers.
fn time_htslib(program: &str, folder: &Path, task: &Task) -> Times {
    let file = folder.join("records.bcf");
    let length = task.record.bytes().len();
    std::fs::write(&file, task.record.htslib_file(FILE / length)).expect("a file for htslib");
    let records = (SAMPLE / length).to_string();
    let output = Command::new(program).arg(task.htslib).arg(&file).arg(records).output().expect("htslib's program");
    let text = String::from_utf8_lossy(&output.stdout);
    let numbers: Vec<f64> = text.split_whitespace().filter_map(|number| number.parse().ok()).collect();
    match numbers[..] {
        [median, least] => Times { median, least },
        _ => panic!("htslib doesn't {}: {}", task.htslib, String::from_utf8_lossy(&output.stderr)),
    }
}
