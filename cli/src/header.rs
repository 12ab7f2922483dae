//! A BCF file's header: its lines, the names of people, and the four numbers that its records are judged by.

use std::collections::HashMap;

use sikalumdo::Facts;

use crate::names::{dictionary, settings, Dictionary};
use crate::source::Source;
use crate::stop::{Outcome, Stop};

/// What a BCF file of version 2.2 begins with.
const MAGIC: &[u8; 5] = b"BCF\x02\x02";
/// The bytes before the header's text.
const HEAD: usize = 9;
const CHUNK: usize = 1 << 16;
const SITE_COLUMNS: [&str; 8] = ["#CHROM", "POS", "ID", "REF", "ALT", "QUAL", "FILTER", "INFO"];
/// The kinds of line whose names make up the dictionary of strings.
const STRINGS: [&str; 3] = ["FILTER", "INFO", "FORMAT"];
/// A GT offset that no key meets.
const NO_GT: u32 = u32::MAX;

/// A line of the header.
pub struct Line {
    /// Where it stands in the file, unpacked.
    pub at: u64,
    /// Its bytes; text in another coding than UTF-8 goes through as it is.
    pub text: Vec<u8>,
}

/// What the program knows of a header.
pub struct Header {
    /// The lines before that of the columns.
    pub lines: Vec<Line>,
    /// The names of the people, in order.
    pub people: Vec<Vec<u8>>,
    /// The strings that keys and filters are offsets of.
    pub strings: Dictionary,
    /// The contigs.
    pub contigs: Dictionary,
    /// The four numbers.
    pub facts: Facts,
}

/// Says what the first bytes are, where they are not those of BCF 2.2.
fn other_file(name: &str, head: &[u8]) -> Stop {
    match head {
        [] => Stop::at(name, 0, "the file is empty; expected BCF 2.2"),
        [b'B', b'C', b'F', 4, ..] => Stop::at(name, 3, "BCF version 1; expected 2.2"),
        [b'B', b'C', b'F', major, minor, ..] => Stop::at(name, 3, format!("BCF version {major}.{minor}; expected 2.2")),
        [b'#', b'#', ..] => Stop::at(name, 0, "VCF text; expected BCF 2.2, as `bcftools view -Ou` makes it"),
        _ => Stop::at(name, 0, "not a BCF file; expected the bytes 42 43 46 02 02"),
    }
}

/// The text of the header, up to the zero bytes that end it.
fn text(source: &mut Source) -> Outcome<Vec<u8>> {
    let mut head = [0; HEAD];
    let known = source.fill(&mut head)?;
    let begun = head.get(..known).unwrap_or_default();
    if !begun.starts_with(MAGIC) {
        return Err(other_file(&source.name, begun));
    }
    if known < HEAD {
        return Err(Stop::at(&source.name, source.at(), "cut short; expected the length of the header, four bytes"));
    }
    let [.., a, b, c, d] = head;
    let text = exactly(source, u32::from_le_bytes([a, b, c, d]) as usize)?;
    let end = text.iter().position(|&byte| byte == 0).unwrap_or(text.len());
    if let Some(over) = text.iter().skip(end).position(|&byte| byte != 0) {
        return Err(Stop::at(
            &source.name,
            (HEAD + end + over) as u64,
            "text after the header's end; expected zero bytes",
        ));
    }
    Ok(text.into_iter().take(end).collect())
}

/// So many bytes. The room grows with what is there, since a damaged length may say anything.
fn exactly(source: &mut Source, size: usize) -> Outcome<Vec<u8>> {
    let mut bytes = Vec::new();
    while bytes.len() < size {
        let (before, step) = (bytes.len(), CHUNK.max(bytes.len()).min(size - bytes.len()));
        bytes.resize(before + step, 0);
        let filled = source.fill(bytes.get_mut(before..).unwrap_or_default())?;
        if filled < step {
            let more = size - before - filled;
            return Err(Stop::at(
                &source.name,
                source.at(),
                format!("the header is cut short; expected {more} bytes more of it"),
            ));
        }
    }
    Ok(bytes)
}

/// The lines of the text, each with its place in the file.
fn lines(text: &[u8]) -> Vec<Line> {
    let mut at = HEAD as u64;
    let body = text.strip_suffix(b"\n").unwrap_or(text);
    let placed = |line: &[u8]| {
        let placed = Line { at, text: line.to_vec() };
        at += line.len() as u64 + 1;
        placed
    };
    body.split(|&byte| byte == b'\n').map(placed).collect()
}

/// The names on the line of the columns.
fn people(name: &str, columns: &Line) -> Outcome<Vec<Vec<u8>>> {
    let mut cells = columns.text.split(|&byte| byte == b'\t');
    for wanted in SITE_COLUMNS {
        if cells.next() != Some(wanted.as_bytes()) {
            return Err(Stop::at(
                name,
                columns.at,
                format!("the header's last line has no column {wanted} in its place; expected #CHROM to INFO"),
            ));
        }
    }
    if cells.next().is_some_and(|cell| cell != b"FORMAT") {
        return Err(Stop::at(name, columns.at, "the ninth column has another name; expected FORMAT"));
    }
    let (mut people, mut seen) = (Vec::new(), HashMap::new());
    for person in cells {
        if person.is_empty() || seen.insert(person, ()).is_some() {
            let words =
                format!("the sample name '{}' is empty or stands twice; expected each name once", shown(person));
            return Err(Stop::at(name, columns.at, words));
        }
        people.push(person.to_vec());
    }
    Ok(people)
}

/// Bytes of a file as text for a line of a message.
pub fn shown(bytes: &[u8]) -> String {
    let text = String::from_utf8_lossy(bytes);
    let one_line = |character: char| match character.is_control() {
        true => character.escape_default().to_string(),
        false => character.to_string(),
    };
    text.chars().map(one_line).collect()
}

impl Header {
    /// Reads the header; the source is then at the first record.
    pub fn read(source: &mut Source) -> Outcome<Header> {
        let text = text(source)?;
        let mut lines = lines(&text);
        let name = &source.name;
        let columns = lines.pop().filter(|line| line.text.starts_with(b"#CHROM"));
        let Some(columns) = columns else {
            return Err(Stop::at(
                name,
                source.at(),
                "the header ends without the line of the columns; expected #CHROM .. INFO",
            ));
        };
        let people = people(name, &columns)?;
        let strings = dictionary(name, &lines, &STRINGS, &[b"PASS"])?;
        let contigs = dictionary(name, &lines, &["contig"], &[])?;
        let formats = lines.iter().filter_map(|line| settings(&line.text, &["FORMAT"]));
        let has_gt = formats.filter_map(|found| found.id).any(|id| id == b"GT");
        let gt = strings.offset(b"GT").filter(|_| has_gt).unwrap_or(NO_GT);
        let facts = Facts { strings: strings.size(), contigs: contigs.size(), people: people.len() as u32, gt };
        Ok(Header { lines, people, strings, contigs, facts })
    }
}

/// The line of the columns, ended, with FORMAT where there are people.
pub fn columns(people: &[&[u8]]) -> Vec<u8> {
    let mut line = SITE_COLUMNS.join("\t").into_bytes();
    if !people.is_empty() {
        line.extend_from_slice(b"\tFORMAT");
    }
    for person in people {
        line.push(b'\t');
        line.extend_from_slice(person);
    }
    line.push(b'\n');
    line
}

/// The bytes of a header with these lines and people.
pub fn written(lines: &[&[u8]], people: &[&[u8]]) -> Vec<u8> {
    let mut text = Vec::new();
    for line in lines {
        text.extend_from_slice(line);
        text.push(b'\n');
    }
    text.extend(columns(people));
    text.push(0);
    let mut bytes = MAGIC.to_vec();
    bytes.extend((text.len() as u32).to_le_bytes());
    bytes.extend(text);
    bytes
}
