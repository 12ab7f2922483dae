//! Damage: sound records made unsound in one way or two, at random places, so that every refusal comes up.

use sikalumdo::Facts;

use crate::elements::{end_of, pack, width, CODES, FLOAT_END, MISSING};
use crate::random::Random;
use crate::record::{set_lengths, set_word, Laid, Record, Spot, Value, What};
use crate::record::{CHROM, GENOTYPE_COUNTS, ID, POS, QUAL, RLEN, SITE_COUNTS};
use crate::shape::offset;

/// Bytes that are lent as a record, and the facts they are judged by.
#[derive(Clone)]
pub struct Input {
    pub facts: Facts,
    pub bytes: Vec<u8>,
}

/// A damaged record. Damage to the parts comes before they are laid out, damage to bytes afterwards.
pub fn damaged(random: &mut Random, record: &Record) -> Input {
    let mut record = record.clone();
    if random.one_in(3) {
        damage_parts(random, &mut record);
    }
    let laid = record.lay();
    let mut input = Input { facts: record.facts, bytes: laid.bytes.clone() };
    for _ in 0..random.pick(&[1, 1, 1, 2, 3]) {
        damage_bytes(random, &mut input, &laid);
    }
    input
}

fn damage_parts(random: &mut Random, record: &mut Record) {
    let allele = random.below(record.alleles.len());
    match random.below(9) {
        0 => repeat_filter(random, record),
        1 => repeat_format(random, record),
        2 => record.alleles[allele] = Value { code: random.pick(&[0, 7]), ..Value::bare() },
        3 => {
            let at = random.below(record.alleles[allele].shown.len());
            record.alleles[allele].shown[at] = random.pick(&[0, 0x20, 0x7F, 0xFF]);
        }
        4 => record.id.code = random.pick(&[0, 1, 5, 3]),
        5 => record.filter.code = random.pick(&[0, 5, 7]),
        6 => element_after_end(random, record),
        7 => long_length(random, record),
        _ => short_true_length(random, record),
    }
}

fn repeat_filter(random: &mut Random, record: &mut Record) {
    let filter = &mut record.filter;
    if filter.len > 0 {
        let (from, to) = (random.below(filter.shown.len()), random.below(filter.shown.len() + 1));
        filter.shown.insert(to, filter.shown[from]);
        filter.len += 1;
        filter.length_code = if filter.len < 15 { 0 } else { 3 };
    }
}

fn repeat_format(random: &mut Random, record: &mut Record) {
    if !record.formats.is_empty() && record.formats.len() < 255 {
        let mut again = record.formats[random.below(record.formats.len())].clone();
        again.0.code = random.within(again.0.code.into(), 3) as u8;
        let at = random.below(record.formats.len() + 1);
        record.formats.insert(at, again);
    }
}

/// Puts an end of vector before the last element of some vector.
fn element_after_end(random: &mut Random, record: &mut Record) {
    let mut values: Vec<_> = record.infos.iter_mut().chain(&mut record.formats).map(|(_, value)| value).collect();
    values.push(&mut record.id);
    values.retain(|value| value.len >= 2 && !value.shown.is_empty());
    if !values.is_empty() {
        let chosen = random.below(values.len());
        let value = &mut values[chosen];
        let at = random.below(value.shown.len());
        value.shown[at] = end_of(value.code);
    }
}

/// Gives a value a length that its elements don't have: most pass the block, and some products of people, length and
/// width are small in 32 bits only.
fn long_length(random: &mut Random, record: &mut Record) {
    let people = record.facts.people.max(1);
    let wraps = ((1u64 << 32) / u64::from(people) + 1).min(0x7FFF_FFFF) as u32;
    let values = record.infos.iter_mut().chain(&mut record.formats).map(|(_, value)| value);
    let mut values: Vec<_> = values.chain([&mut record.id, &mut record.filter]).collect();
    let chosen = random.below(values.len());
    let value = &mut values[chosen];
    value.length_code = 3;
    value.len = match random.below(4) {
        0 => wraps,
        1 => random.pick(&[1 << 30, 1 << 29, 0x4000_0001, 0x7FFF_FFFF]),
        _ => value.len + random.within(0, 20) as u32,
    };
}

/// A length that stands in the descriptor is written as a true length.
fn short_true_length(random: &mut Random, record: &mut Record) {
    let values = record.alleles.iter_mut().chain(record.infos.iter_mut().map(|(_, value)| value));
    let mut values: Vec<_> = values.filter(|value| value.len < 15).collect();
    if !values.is_empty() {
        let chosen = random.below(values.len());
        values[chosen].length_code = random.pick(&[1, 2, 3]);
    }
}

fn damage_bytes(random: &mut Random, input: &mut Input, laid: &Laid) {
    match random.below(14) {
        0 => input.bytes.truncate(random.below(laid.bytes.len())),
        1 => block_length(random, &mut input.bytes),
        2 => count(random, &mut input.bytes),
        3 => fixed_field(random, input),
        4 => any_byte(random, &mut input.bytes),
        5 => descriptor(random, &mut input.bytes, laid),
        6 | 7 => element(random, &mut input.bytes, laid),
        8 => key(random, input, laid),
        9 => true_length(random, &mut input.bytes, laid),
        10 => bytes_over(random, &mut input.bytes),
        11 => bytes_gone(random, &mut input.bytes),
        12 => wrong_facts(random, &mut input.facts),
        _ => short_site(random, &mut input.bytes),
    }
}

fn word(bytes: &[u8], at: usize) -> u32 {
    bytes.get(at..at + 4).map_or(0, |four| u32::from_le_bytes([four[0], four[1], four[2], four[3]]))
}

fn block_length(random: &mut Random, bytes: &mut [u8]) {
    let at = random.pick(&[0, 4]);
    let length = match random.below(6) {
        0 => random.pick(&[u32::MAX, 1 << 24, (1 << 24) - 8, 1 << 31, u32::MAX - 8]),
        1 => (1 << 24) - 8 - word(bytes, 4 - at).min(1 << 20) + random.below(3) as u32,
        _ => word(bytes, at).wrapping_add(random.pick(&[1, u32::MAX, 2, u32::MAX - 1, 5])),
    };
    set_word(bytes, at, length);
}

/// One of the four counts, off by one or any number.
fn count(random: &mut Random, bytes: &mut [u8]) {
    let units = [(SITE_COUNTS, 1), (SITE_COUNTS, 1 << 16), (GENOTYPE_COUNTS, 1), (GENOTYPE_COUNTS, 1 << 24)];
    let (at, unit) = random.pick(&units);
    let any = random.next() as u32;
    let times = random.pick(&[1, u32::MAX, 2, u32::MAX - 1, any]);
    set_word(bytes, at, word(bytes, at).wrapping_add(times.wrapping_mul(unit)));
}

fn fixed_field(random: &mut Random, input: &mut Input) {
    let (at, value) = match random.below(4) {
        0 => (CHROM, random.pick(&[input.facts.contigs, u32::MAX, 1 << 31])),
        1 => (POS, random.pick(&[i32::MAX as u32, -2i32 as u32, 1 << 31])),
        2 => (RLEN, random.pick(&[u32::MAX, 1 << 31])),
        _ => (QUAL, FLOAT_END + random.below(7) as u32),
    };
    set_word(&mut input.bytes, at, value);
}

fn any_byte(random: &mut Random, bytes: &mut [u8]) {
    if !bytes.is_empty() {
        let any = random.next() as u8;
        bytes[random.below(bytes.len())] = random.pick(&[0, 0x80, 0x81, 0x82, 0xFF, any]);
    }
}

/// A random stretch of a sort that lies in the bytes as they are now and isn't empty.
fn spot(random: &mut Random, bytes: &[u8], laid: &Laid, what: What) -> Option<Spot> {
    let is_there = |spot: &&Spot| spot.what == what && spot.first < spot.stop && spot.stop <= bytes.len();
    let spots: Vec<&Spot> = laid.spots.iter().filter(is_there).collect();
    (!spots.is_empty()).then(|| *random.pick(&spots))
}

fn descriptor(random: &mut Random, bytes: &mut [u8], laid: &Laid) {
    if let Some(spot) = spot(random, bytes, laid, What::Descriptor) {
        let byte = &mut bytes[spot.first];
        *byte = match random.below(7) {
            0 => byte.wrapping_add(0x10),
            1 => byte.wrapping_sub(0x10),
            2 => *byte & 0xF0 | random.pick(&CODES),
            3 => *byte | 0xF0,
            4 => 0x00,
            5 => (random.below(15) as u8 + 1) << 4,
            _ => *byte & 0xF0 | random.below(16) as u8,
        };
    }
}

/// Writes a pattern of a type over an element.
fn element(random: &mut Random, bytes: &mut [u8], laid: &Laid) {
    if let Some(spot) = spot(random, bytes, laid, What::Elements) {
        let width = width(spot.code);
        let at = spot.first + random.below((spot.stop - spot.first) / width) * width;
        let base = if spot.code == 5 { FLOAT_END - 2 } else { 1 << (8 * width - 1) };
        let pattern = match random.below(5) {
            0..=2 => base + random.below(9) as u32,
            3 => random.pick(&[u32::MAX, 0, 6, 0x7F, 0x7FFF]),
            _ => u32::from(bytes[at]) + 2,
        };
        bytes[at..at + width].copy_from_slice(&pattern.to_le_bytes()[..width]);
    }
}

/// Writes over a key one of the edges of the dictionary, a mark, or a key that stands elsewhere.
fn key(random: &mut Random, input: &mut Input, laid: &Laid) {
    if let Some(spot) = spot(random, &input.bytes, laid, What::Key) {
        let strings = input.facts.strings;
        let edges = [strings, strings.wrapping_sub(1), u32::MAX, MISSING, MISSING + 1, MISSING + 2, input.facts.gt];
        let number = if random.one_in(3) { offset(random, strings.max(1)) } else { random.pick(&edges) };
        let mut key = Vec::new();
        pack(&mut key, spot.code, &[number]);
        input.bytes[spot.first..spot.stop].copy_from_slice(&key);
    }
}

fn true_length(random: &mut Random, bytes: &mut [u8], laid: &Laid) {
    if let Some(spot) = spot(random, bytes, laid, What::TrueLength) {
        let length = random.pick(&[14, 0, 15, MISSING, MISSING + 1, 0x82, u32::MAX, 0x7F, 0x7FFF_FFFF, 1 << 30, 16]);
        let mut packed = Vec::new();
        pack(&mut packed, spot.code, &[length]);
        bytes[spot.first..spot.stop].copy_from_slice(&packed);
    }
}

/// The end of the site block, where the bytes still say where it is.
fn border(bytes: &[u8]) -> Option<usize> {
    let border = 8 + word(bytes, 0) as usize;
    (bytes.len() >= 8 && border <= bytes.len()).then_some(border)
}

/// Bytes more at the end of a block, within its length.
fn bytes_over(random: &mut Random, bytes: &mut Vec<u8>) {
    if let Some(border) = border(bytes) {
        let (more, in_site) = (random.below(3) + 1, random.one_in(2));
        let at = if in_site { border } else { bytes.len() };
        bytes.splice(at..at, random.bytes(more));
        set_lengths(bytes, if in_site { border + more } else { border });
    }
}

/// Bytes fewer at the end of a block, its length with them.
fn bytes_gone(random: &mut Random, bytes: &mut Vec<u8>) {
    if let Some(border) = border(bytes) {
        let stop = if random.one_in(2) { border } else { bytes.len() };
        let gone = random.below(30).min(stop - 8);
        bytes.drain(stop - gone..stop);
        set_lengths(bytes, if stop == border { border - gone } else { border.min(stop - gone) });
    }
}

fn wrong_facts(random: &mut Random, facts: &mut Facts) {
    match random.below(7) {
        0 => facts.strings = random.below(4) as u32,
        1 => facts.strings = facts.strings.wrapping_sub(1),
        2 => facts.contigs = random.pick(&[0, 1]),
        3 => facts.people = facts.people.wrapping_add(random.pick(&[1, u32::MAX, 1 << 24])),
        4 => facts.gt = offset(random, facts.strings.max(1)),
        5 => facts.gt = random.pick(&[u32::MAX, MISSING]),
        _ => facts.people = 0,
    }
}

/// A site block too short for its fixed fields, in a record all of whose bytes are there.
fn short_site(random: &mut Random, bytes: &mut [u8]) {
    if bytes.len() >= 8 && random.one_in(3) {
        set_lengths(bytes, (CHROM + random.below(ID - CHROM)).min(bytes.len()));
    }
}

/// Bytes of no shape, or behind two lengths that fit them.
pub fn noise(random: &mut Random, facts: Facts) -> Input {
    let count = random.below(200);
    let mut bytes = random.bytes(count);
    if count >= ID && !random.one_in(4) {
        set_lengths(&mut bytes, random.within(ID as i64, count as i64) as usize);
        let fields = [
            (CHROM, 0),
            (POS, random.below(1000) as u32),
            (RLEN, 1),
            (QUAL, 0),
            (SITE_COUNTS, 1 << 16 | random.below(2) as u32),
            (GENOTYPE_COUNTS, facts.people & 0xFF_FFFF),
        ];
        fields.into_iter().for_each(|(at, word)| set_word(&mut bytes, at, word));
    }
    Input { facts, bytes }
}
