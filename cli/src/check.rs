//! `check`: every record read, and a line for each that is refused.

use std::collections::BTreeMap;

use crate::args::Asked;
use crate::header::Header;
use crate::output::Output;
use crate::place::refusal_words;
use crate::progress::Progress;
use crate::records::{Entry, Records};
use crate::source::Source;
use crate::stop::{Outcome, DIFFERS};
use crate::work::share;

/// What one thread found.
#[derive(Default)]
struct Found {
    lines: String,
    refused: BTreeMap<u32, u64>,
}

fn check_part(found: &mut Found, header: &Header, part: &[Entry]) {
    for entry in part {
        if let Err(refusal) = sikalumdo::read(entry.bytes, &header.facts) {
            found.lines.push_str(&refusal_words(header, entry, &refusal));
            found.lines.push('\n');
            *found.refused.entry(refusal.number).or_default() += 1;
        }
    }
}

/// The last line: records, accepted, and refused by number.
fn last_line(records: u64, refused: &BTreeMap<u32, u64>) -> String {
    let all: u64 = refused.values().sum();
    let by_number: Vec<String> = refused.iter().map(|(number, count)| format!("{count} by refusal {number}")).collect();
    let how = if by_number.is_empty() { String::new() } else { format!(": {}", by_number.join(", ")) };
    format!("{records} records, {} accepted, {all} refused{how}\n", records - all)
}

/// Checks a file, and answers the exit status.
pub fn check(asked: &Asked) -> Outcome<u8> {
    let mut source = Source::open(asked.file(0), asked.threads)?;
    let header = Header::read(&mut source)?;
    let mut records = Records::new(source, asked.threads);
    let (mut output, mut progress) = (Output::standard()?, Progress::begin(asked.quiet));
    let mut workers: Vec<Found> = (0..asked.threads).map(|_| Found::default()).collect();
    let (mut count, mut refused) = (0, BTreeMap::new());
    loop {
        let batch = records.batch()?;
        let size = batch.len();
        if size == 0 {
            break;
        }
        share(&mut workers, &batch, |found, part| check_part(found, &header, part))?;
        for found in &mut workers {
            output.put(found.lines.as_bytes())?;
            std::mem::take(&mut found.refused)
                .into_iter()
                .for_each(|(number, more)| *refused.entry(number).or_default() += more);
            found.lines.clear();
        }
        count += size as u64;
        records.pass(size);
        progress.tell(count, records.source.share());
    }
    drop(progress);
    if !asked.quiet {
        output.put(last_line(count, &refused).as_bytes())?;
    }
    Ok(if refused.is_empty() { 0 } else { DIFFERS })
}
