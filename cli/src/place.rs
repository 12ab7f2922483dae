//! How messages name a record: its number, and contig and position where they can be read.

use sikalumdo::Refusal;

use crate::header::{shown, Header};
use crate::records::Entry;

/// Where CHROM and POS stand, four bytes each.
const CHROM: usize = 8;
const POS: usize = 12;

fn word(bytes: &[u8], at: usize) -> Option<i32> {
    bytes.get(at..)?.first_chunk().map(|four| i32::from_le_bytes(*four))
}

/// The contig's name and the VCF position that a record says, accepted or not. The largest number is no position.
pub fn place<'h>(header: &'h Header, bytes: &[u8]) -> Option<(&'h [u8], i32)> {
    let offset = u32::try_from(word(bytes, CHROM)?).ok()?;
    let pos = word(bytes, POS).filter(|&pos| pos < i32::MAX)?;
    Some((header.contigs.name(offset)?, sikalumdo::vcf_pos(pos)))
}

/// Whether two records say the same contig and position.
pub fn is_same_place(one: &[u8], other: &[u8]) -> bool {
    word(one, CHROM) == word(other, CHROM) && word(one, POS) == word(other, POS)
}

/// A record in words, as `record 17 (20:14370)`.
pub fn record_words(header: &Header, entry: &Entry) -> String {
    match place(header, entry.bytes) {
        Some((contig, position)) => format!("record {} ({}:{position})", entry.number, shown(contig)),
        None => format!("record {}", entry.number),
    }
}

/// What the library refuses a record for, in words.
pub fn refusal_words(header: &Header, entry: &Entry, refusal: &Refusal) -> String {
    let Refusal { number, place } = *refusal;
    let (record, rule) = (record_words(header, entry), refusal.words());
    format!("{record} at byte {}: refusal {number} at byte {place} of the record: {rule}", entry.at)
}
