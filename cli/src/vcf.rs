//! `vcf`: a file as VCF text, with the genotypes alone: what the header still says of its lines, and a line for each record.

use sikalumdo::{NameList, Refusal};

use crate::args::Asked;
use crate::header::{columns, Header};
use crate::names::{settings, without_idx, Dictionary};
use crate::output::say;
use crate::place::refusal_words;
use crate::progress::Progress;
use crate::records::{Entry, Records};
use crate::release::Release;
use crate::source::Source;
use crate::stop::{Outcome, Stop, DIFFERS};
use crate::work::share;

/// The refusal of a line for which there is not room enough.
const NO_ROOM: u32 = 13;
/// The room that is made first, in bytes.
const FIRST_ROOM: usize = 1 << 16;
/// The largest dictionary whose names are listed, gaps and all; a damaged IDX may say anything.
const MOST_NAMES: u32 = 1 << 24;
/// A line with calls has at least so many tabs: before FORMAT's column, GT's own and one person's.
const TABS_WITH_CALLS: usize = 9;
/// The line that VCF text begins with where the file has none.
const FORMAT: &[u8] = b"##fileformat=VCFv4.3";

/// The names of a header, as the library is lent them.
struct Names {
    strings: NameList,
    contigs: NameList,
}

/// What one thread wrote, one line after another at the buffer's start.
#[derive(Default)]
struct Lines {
    buffer: Vec<u8>,
    used: usize,
    words: String,
    refused: u64,
}

impl Lines {
    /// Adds the line of a record. Room that was made once is kept.
    fn add(&mut self, header: &Header, names: &Names, bytes: &[u8]) -> Result<(), Refusal> {
        loop {
            let room = self.buffer.get_mut(self.used..).unwrap_or_default();
            match sikalumdo::vcf_line(bytes, &header.facts, names.strings.lend(), names.contigs.lend(), room) {
                Ok(length) => {
                    self.used += length;
                    self.level(header, length);
                    return Ok(());
                }
                Err(refusal) if refusal.number != NO_ROOM => return Err(refusal),
                Err(_) => self.buffer.resize((2 * self.buffer.len()).max(FIRST_ROOM), 0),
            }
        }
    }

    /// Gives a line of eight columns, of a record without GT, dots for FORMAT and the people, where others have calls: as
    /// bcftools has it, so that all lines of the text have the columns that its header names.
    fn level(&mut self, header: &Header, length: usize) {
        let line = self.buffer.get(self.used - length..self.used).unwrap_or_default();
        if !has_calls(header) || line.iter().filter(|&&byte| byte == b'\t').nth(TABS_WITH_CALLS - 1).is_some() {
            return;
        }
        let feed = self.used - 1;
        let end = feed + 2 * (1 + header.people.len());
        self.buffer.resize(self.buffer.len().max(end + 1), 0);
        for column in self.buffer.get_mut(feed..end).unwrap_or_default().chunks_exact_mut(2) {
            column.copy_from_slice(b"\t.");
        }
        self.buffer.get_mut(end..=end).unwrap_or_default().fill(b'\n');
        self.used = end + 1;
    }
}

fn print_part(lines: &mut Lines, header: &Header, names: &Names, part: &[Entry]) {
    for entry in part {
        if let Err(refusal) = lines.add(header, names, entry.bytes) {
            lines.refused += 1;
            lines.words.push_str(&refusal_words(header, entry, &refusal));
            lines.words.push('\n');
        }
    }
}

/// The names of a dictionary by offset; gaps have empty ones.
fn listed(file: &str, what: &str, dictionary: &Dictionary) -> Outcome<NameList> {
    let size = dictionary.size();
    if size > MOST_NAMES {
        let words =
            format!("{file}: the largest offset of the {what} is {}; expected one below {MOST_NAMES}", size - 1);
        return Err(Stop::usage(words));
    }
    Ok((0..size).map(|offset| dictionary.name(offset).unwrap_or_default()).collect())
}

/// Whether any line can have calls. Without them FORMAT and people are no columns either, so that no line falls short.
fn has_calls(header: &Header) -> bool {
    !header.people.is_empty() && header.facts.gt < header.facts.strings
}

/// The header as text: its lines of the format, the contigs, the filters and GT, and the line of the columns.
fn head(header: &Header) -> Vec<u8> {
    let has_calls = has_calls(header);
    let is_format = |line: &&[u8]| line.starts_with(b"##fileformat=");
    let is_kept = |line: &&[u8]| match settings(line, &["FORMAT"]) {
        Some(format) => has_calls && format.id == Some(b"GT"),
        None => settings(line, &["contig", "FILTER"]).is_some(),
    };
    let lines = || header.lines.iter().map(|line| line.text.as_slice());
    let mut text = lines().find(is_format).unwrap_or(FORMAT).to_vec();
    text.push(b'\n');
    for line in lines().filter(is_kept) {
        text.extend(without_idx(line));
        text.push(b'\n');
    }
    let people = header.people.iter().map(Vec::as_slice).filter(|_| has_calls);
    text.extend(columns(&people.collect::<Vec<&[u8]>>()));
    text
}

/// Writes what the threads wrote, in order, and answers how many records were refused.
fn put_lines(text: &mut Release, workers: &mut [Lines]) -> Outcome<u64> {
    let mut refused = 0;
    for lines in workers {
        text.put(lines.buffer.get(..lines.used).unwrap_or_default())?;
        say(&lines.words)?;
        refused += std::mem::take(&mut lines.refused);
        lines.used = 0;
        lines.words.clear();
    }
    Ok(refused)
}

/// Prints a file as text, and answers the exit status.
pub fn vcf(asked: &Asked) -> Outcome<u8> {
    let mut source = Source::open(asked.file(0), asked.threads)?;
    let header = Header::read(&mut source)?;
    let name = source.name.clone();
    let strings = listed(&name, "strings", &header.strings)?;
    let names = Names { strings, contigs: listed(&name, "contigs", &header.contigs)? };
    let place = asked.output.as_deref().unwrap_or("-");
    let mut text = Release::begin(place, asked.file(0), false, asked.threads)?;
    text.put(&head(&header))?;
    let mut records = Records::new(source, asked.threads);
    let mut progress = Progress::begin(asked.quiet);
    let mut workers: Vec<Lines> = (0..asked.threads).map(|_| Lines::default()).collect();
    let (mut count, mut refused) = (0, 0);
    loop {
        let batch = records.batch()?;
        let size = batch.len();
        if size == 0 {
            break;
        }
        share(&mut workers, &batch, |lines, part| print_part(lines, &header, &names, part))?;
        refused += put_lines(&mut text, &mut workers)?;
        count += size as u64;
        records.pass(size);
        progress.tell(count, records.source.share());
    }
    drop(progress);
    text.finish()?;
    if refused > 0 && !asked.quiet {
        say(&format!("{name}: {refused} of {count} records were refused and have no line\n"))?;
    }
    Ok(if refused == 0 { 0 } else { DIFFERS })
}
