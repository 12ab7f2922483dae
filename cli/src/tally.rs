//! `tally`: a row for each record, or the totals alone.

use std::io::Write;

use sikalumdo::{field_of, Kind, Refusal, Site, Tally};

use crate::args::Asked;
use crate::header::Header;
use crate::output::{say, Output};
use crate::place::{place, refusal_words};
use crate::progress::Progress;
use crate::records::{site_block, Entry, Records, LENGTHS};
use crate::source::Source;
use crate::stop::{Outcome, DIFFERS};
use crate::totals::Totals;
use crate::work::share;

const COLUMNS: &[u8] = b"contig\tposition\tID\tREF\tALT\tpeople\twithout_genotype\tmissing\tcalls\n";

/// What one thread found.
#[derive(Default)]
struct Found {
    rows: Vec<u8>,
    words: String,
    totals: Totals,
}

/// Text of a record up to its padding, with what would break a row written out.
fn put_text(rows: &mut Vec<u8>, text: &[u8]) {
    let text = text.split(|&byte| byte == 0).next().unwrap_or_default();
    for &byte in text {
        match byte {
            b'\t' | b'\n' | b'\r' => rows.extend(byte.escape_ascii()),
            _ => rows.push(byte),
        }
    }
    if text.is_empty() {
        rows.push(b'.');
    }
}

/// Contig and position, or dots where they cannot be read.
fn put_place(rows: &mut Vec<u8>, header: &Header, bytes: &[u8]) {
    match place(header, bytes) {
        Some((contig, position)) => {
            put_text(rows, contig);
            put_number(rows, b'\t', position);
        }
        None => rows.extend_from_slice(b".\t."),
    }
}

/// A number after a byte that parts it from what stands before. Writing to memory does not fail.
fn put_number(rows: &mut Vec<u8>, before: u8, number: impl std::fmt::Display) {
    rows.push(before);
    let _ = write!(rows, "{number}");
}

/// What fetching an ID or an allele needs of a record that was accepted, made of its lengths and its number of alleles, so
/// that a record that was tallied is not read once more.
fn told(bytes: &[u8], alleles: u32) -> Option<Site> {
    let border = LENGTHS + site_block(bytes)?.len();
    Some(Site {
        length: bytes.len() as u32,
        border: border as u32,
        alleles,
        chrom: 0,
        pos: 0,
        rlen: 0,
        qual_bits: 0,
        infos: 0,
        formats: 0,
        people: 0,
        gt_type: 0,
        gt_len: 0,
        gt_place: 0,
    })
}

/// ID, REF and ALT of a record that was accepted, or dots.
fn put_site(rows: &mut Vec<u8>, bytes: &[u8], alleles: u32) {
    let site = told(bytes, alleles);
    let mut put = |before: u8, kind: Kind, number: u32| {
        rows.push(before);
        let field = site.and_then(|site| field_of(bytes, &site, kind, number).ok());
        put_text(rows, field.map_or(&[], |field| field.elements));
    };
    put(b'\t', Kind::ID, 0);
    put(b'\t', Kind::ALLELE, 0);
    put(b'\t', Kind::ALLELE, 1);
    (2..alleles).for_each(|number| put(b',', Kind::ALLELE, number));
}

fn put_counts(rows: &mut Vec<u8>, tally: &Tally) {
    for count in [tally.people, tally.without, tally.missing] {
        put_number(rows, b'\t', count);
    }
    let mut before = b'\t';
    for count in tally.calls.iter().take(tally.alleles as usize) {
        put_number(rows, before, count);
        before = b',';
    }
}

/// The row of a record that is refused has its refusal for the calls. One with too many alleles can be read all the same.
fn put_refused(rows: &mut Vec<u8>, entry: &Entry, header: &Header, refusal: &Refusal) {
    let alleles = sikalumdo::read(entry.bytes, &header.facts).map_or(0, |site| site.alleles);
    put_site(rows, entry.bytes, alleles);
    // Writing to memory does not fail.
    let _ = write!(rows, "\t.\t.\t.\trefused {} at {}", refusal.number, refusal.place);
}

fn tally_part(found: &mut Found, header: &Header, with_rows: bool, part: &[Entry]) {
    for entry in part {
        let tallied = sikalumdo::tally(entry.bytes, &header.facts);
        match &tallied {
            Ok(tally) => found.totals.add(tally),
            Err(refusal) => {
                found.totals.refused += 1;
                found.words.push_str(&refusal_words(header, entry, refusal));
                found.words.push('\n');
            }
        }
        if with_rows {
            put_row(&mut found.rows, header, entry, &tallied);
        }
    }
}

fn put_row(rows: &mut Vec<u8>, header: &Header, entry: &Entry, tallied: &Result<Tally, Refusal>) {
    put_place(rows, header, entry.bytes);
    match tallied {
        Ok(tally) => {
            put_site(rows, entry.bytes, tally.alleles as u32);
            put_counts(rows, tally);
        }
        Err(refusal) => put_refused(rows, entry, header, refusal),
    }
    rows.push(b'\n');
}

/// Tallies a file, and answers the exit status.
pub fn tally(asked: &Asked) -> Outcome<u8> {
    let mut source = Source::open(asked.file(0), asked.threads)?;
    let header = Header::read(&mut source)?;
    let mut records = Records::new(source, asked.threads);
    let (mut output, mut progress) = (Output::standard()?, Progress::begin(asked.quiet));
    let mut workers: Vec<Found> = (0..asked.threads).map(|_| Found::default()).collect();
    let mut totals = Totals::default();
    if !asked.summary {
        output.put(COLUMNS)?;
    }
    loop {
        let batch = records.batch()?;
        let size = batch.len();
        if size == 0 {
            break;
        }
        share(&mut workers, &batch, |found, part| tally_part(found, &header, !asked.summary, part))?;
        for found in &mut workers {
            output.put(&found.rows)?;
            say(&found.words)?;
            totals.join(&std::mem::take(&mut found.totals));
            found.rows.clear();
            found.words.clear();
        }
        records.pass(size);
        progress.tell(totals.records + totals.refused, records.source.share());
    }
    drop(progress);
    if asked.summary {
        output.put(totals.lines().as_bytes())?;
    }
    Ok(if totals.refused == 0 { 0 } else { DIFFERS })
}
