//! VCF lines: a record as one line of text, with each person's call and without INFO or the other FORMAT fields.

use crate::descriptor::{value, Value};
use crate::elements::{numbers, Integer, END, MISSING};
use crate::facts::Facts;
use crate::fixed::ID_PLACE;
use crate::names::{printed, Names};
use crate::read::{read, Site};
use crate::refusal::{Refusal, FEW_NAMES, NO_ROOM, QUAL_NOT_PRINTED};
use crate::types::{width, INTEGER, TEXT};

/// QUAL's missing mark.
const NO_QUAL: u32 = 0x7F80_0001;
/// The greatest QUAL that is printed: up to it a float holds every whole number, and the next one above it.
const MOST_QUAL: f32 = 16_777_215.0;

/// Writes the record's VCF line, its line feed included, to the start of `buf` and gives its length. Reading's refusal
/// first, then 17, then 18, then 13; a refusal writes nothing, and bytes past the line stay.
pub fn vcf_line(s: &[u8], facts: &Facts, strings: Names, contigs: Names, buf: &mut [u8]) -> Result<usize, Refusal> {
    let site = read(s, facts)?;
    let qual = printed_qual(site.qual_bits)?;
    if !strings.cover(facts.strings) || !contigs.cover(facts.contigs) {
        return Err(Refusal::of(FEW_NAMES));
    }
    let slots = site.people as usize * site.gt_len.max(1) as usize;
    let mut line = Vec::with_capacity(site.border as usize + 2 * slots);
    line.extend_from_slice(contigs.get(site.contig as usize));
    line.push(b'\t');
    // One-based; the greatest POS is the greatest number less one.
    put_number(&mut line, (site.pos + 1) as u32);
    put_names(&mut line, &s[..site.border as usize], site.alleles, &qual, strings)?;
    line.extend_from_slice(b"\t.");
    // The place of a GT field is never 0, not even of one without elements.
    if site.gt_first > 0 {
        line.extend_from_slice(b"\tGT");
        put_calls(&mut line, s, &site);
    }
    line.push(b'\n');
    buf.get_mut(..line.len()).ok_or(Refusal::of(NO_ROOM))?.copy_from_slice(&line);
    Ok(line.len())
}

/// QUAL as it stands in a line: a dot, or the digits of a whole number. No other float is printed.
fn printed_qual(bits: u32) -> Result<String, Refusal> {
    let qual = f32::from_bits(bits);
    if bits == NO_QUAL {
        Ok(".".to_string())
    } else if (0.0..=MOST_QUAL).contains(&qual) && qual.fract() == 0.0 {
        Ok((qual as u32).to_string())
    } else {
        Err(Refusal::of(QUAL_NOT_PRINTED))
    }
}

/// The columns from ID to FILTER, each after a tab.
fn put_names(line: &mut Vec<u8>, block: &[u8], alleles: u32, qual: &str, strings: Names) -> Result<(), Refusal> {
    let part = |value: &Value| &block[value.first..value.stop];
    let mut text = value(block, ID_PLACE, TEXT, 1)?;
    let id = printed(part(&text));
    put_cell(line, if id.is_empty() { b"." } else { id });
    for number in 0..alleles {
        text = value(block, text.stop, TEXT, 1)?;
        // REF and the first ALT begin columns.
        line.push(if number < 2 { b'\t' } else { b',' });
        line.extend_from_slice(part(&text));
    }
    if alleles == 1 {
        put_cell(line, b".");
    }
    put_cell(line, qual.as_bytes());
    let filter = value(block, text.stop, INTEGER, 1)?;
    for (number, offset) in numbers(part(&filter), filter.code).enumerate() {
        line.push(if number == 0 { b'\t' } else { b';' });
        line.extend_from_slice(strings.get(offset as usize));
    }
    if filter.len == 0 {
        put_cell(line, b".");
    }
    Ok(())
}

/// Each person's call after a tab; a dot for a person who has none.
fn put_calls(line: &mut Vec<u8>, s: &[u8], site: &Site) {
    let person = site.gt_len as usize * width(site.gt_type);
    if person == 0 {
        (0..site.people).for_each(|_| put_cell(line, b"."));
        return;
    }
    let vectors = s[site.gt_first as usize..].chunks_exact(person).take(site.people as usize);
    match site.gt_type {
        1 => vectors.for_each(|vector| put_call(line, vector.iter().map(|&byte| (byte as i8).shown()))),
        code => vectors.for_each(|vector| put_call(line, numbers(vector, code))),
    }
}

/// One person's call: the codes up to the first end of vector, each after the sign of its own phase but for the first.
fn put_call(line: &mut Vec<u8>, codes: impl Iterator<Item = i32>) {
    let mut slots = 0;
    for code in codes.take_while(|&code| code != END) {
        // The missing mark is an unphased dot, as code 0 is.
        let code = if code == MISSING { 0 } else { code as u32 };
        let before = match (slots, code % 2) {
            (0, _) => b'\t',
            (_, 1) => b'|',
            _ => b'/',
        };
        put_slot(line, before, (code / 2).checked_sub(1));
        slots += 1;
    }
    if slots == 0 {
        put_cell(line, b".");
    }
}

/// An allele's number, or a dot for a missing one, after what stands before it. Most have one digit.
fn put_slot(line: &mut Vec<u8>, before: u8, allele: Option<u32>) {
    match allele {
        None => line.extend_from_slice(&[before, b'.']),
        Some(digit @ 0..=9) => line.extend_from_slice(&[before, b'0' + digit as u8]),
        Some(number) => {
            line.push(before);
            put_number(line, number);
        }
    }
}

fn put_cell(line: &mut Vec<u8>, text: &[u8]) {
    line.push(b'\t');
    line.extend_from_slice(text);
}

fn put_number(line: &mut Vec<u8>, number: u32) {
    line.extend_from_slice(number.to_string().as_bytes());
}
