//! Sound records of many shapes, made at random: facts, fixed fields, and values of every type, length and width, bare
//! 00s among them.

use sikalumdo::Facts;

use crate::elements::{genotype, limits, vector, CODES, FLOAT_MISSING};
use crate::random::Random;
use crate::record::{Key, Record, Value};

/// People of which a record holds no elements here, since it would be too large to be compared often.
const MANY_PEOPLE: u32 = 1_000_000;

/// Facts that some record meets.
pub fn facts(random: &mut Random) -> Facts {
    let strings = match random.below(12) {
        0 => random.within(1, 3),
        1..=6 => random.within(4, 30),
        7..=8 => random.within(120, 400),
        9..=10 => random.within(32_700, 70_000),
        _ => random.pick(&[1 << 31, u32::MAX.into(), 1 << 24]),
    } as u32;
    let contigs = match random.below(10) {
        0 => random.pick(&[1 << 31, u32::MAX]),
        _ => random.within(1, 40) as u32,
    };
    let people = match random.below(200) {
        0..=19 => 0,
        20 => random.within(1_000, 6_000),
        21 => random.pick(&[MANY_PEOPLE, 1 << 23, (1 << 24) - 1]).into(),
        22..=32 => random.within(61, 300),
        _ => random.within(1, 60),
    } as u32;
    let gt = match random.below(10) {
        0 => random.pick(&[u32::MAX, 1 << 31, strings]),
        _ => offset(random, strings),
    };
    Facts { strings, contigs, people, gt }
}

/// An offset below the dictionary's size, small ones often.
pub fn offset(random: &mut Random, strings: u32) -> u32 {
    let most = i64::from(strings.min(1 << 31)) - 1;
    let low = random.pick(&[5, 5, 130, 33_000, most]).min(most);
    random.within(0, low) as u32
}

pub fn record(random: &mut Random) -> Record {
    let facts = facts(random);
    record_of(random, facts)
}

pub fn record_of(random: &mut Random, facts: Facts) -> Record {
    let alleles = match random.below(60) {
        0 => random.within(60, 70),
        1 => random.within(65, 300),
        _ => random.within(1, 5),
    } as usize;
    let (chrom, pos, rlen, qual) = fixed_fields(random, &facts);
    Record {
        facts,
        chrom,
        pos,
        rlen,
        qual,
        id: id(random),
        alleles: (0..alleles).map(|_| allele(random)).collect(),
        filter: filter(random, facts.strings),
        infos: infos(random, facts.strings),
        formats: formats(random, &facts, alleles),
    }
}

/// CHROM, POS, rlen and QUAL that no rule forbids.
pub fn fixed_fields(random: &mut Random, facts: &Facts) -> (i32, i32, i32, u32) {
    let most = i64::from(facts.contigs.min(1 << 31)) - 1;
    let chrom = if random.one_in(4) { most } else { random.within(0, most) };
    let pos = match random.below(4) {
        0 => random.pick(&[-1, 0, 2_147_483_646]),
        _ => random.within(0, 300_000_000),
    };
    let rlen = random.pick(&[0, 1, 1, 77, i32::MAX]);
    (chrom as i32, pos as i32, rlen, qual(random))
}

/// QUAL that no rule forbids: whole numbers often, since a line prints no others.
fn qual(random: &mut Random) -> u32 {
    let most = random.pick(&[60, 3_000, 1 << 24, 1 << 25]);
    match random.below(6) {
        0 => FLOAT_MISSING,
        1 => random.pick(&[0, 0x8000_0000, 0x7F80_0000, 0x7F80_0008, 0xFF80_0002, 0x4B7F_FFFF, 0x4B80_0000]),
        2 => (random.next() as u32) & 0x7F7F_FFFF,
        3 => (random.within(0, most) as f32 / 2.0).to_bits(),
        _ => (random.within(0, most) as f32).to_bits(),
    }
}

/// A value whose length stands as short as it may, or in a wider true length.
fn value(random: &mut Random, code: u8, len: u32, shown: Vec<u32>) -> Value {
    let length_code = if len < 15 { 0 } else { code_for(random, len) };
    Value { code, len, length_code, shown }
}

/// One of the integer types that a number of 0 or more fits.
fn code_for(random: &mut Random, number: u32) -> u8 {
    let fits: Vec<u8> = (1..=3).filter(|&code| i64::from(number) <= limits(code).1).collect();
    random.pick(&fits)
}

fn key(random: &mut Random, number: u32) -> Key {
    Key { number, code: code_for(random, number) }
}

/// A length of a value in the site block.
pub fn site_length(random: &mut Random) -> u32 {
    (match random.below(40) {
        0 => random.within(120, 300),
        1..=8 => random.within(13, 40),
        _ => random.within(0, 6),
    }) as u32
}

fn id(random: &mut Random) -> Value {
    let len = site_length(random);
    let shown = vector(random, 7, len as usize);
    value(random, 7, len, shown)
}

fn allele(random: &mut Random) -> Value {
    let len = site_length(random).max(1);
    let shown = (0..len).map(|_| random.within(0x21, 0x7E) as u32).collect();
    value(random, 7, len, shown)
}

fn filter(random: &mut Random, strings: u32) -> Value {
    if random.one_in(6) {
        return Value::bare();
    }
    let shown = offsets(random, strings);
    let code = shown.iter().map(|&offset| code_for(random, offset)).max().unwrap_or(random.pick(&[1, 2, 3]));
    value(random, code, shown.len() as u32, shown)
}

/// Different offsets, few or none as a rule.
pub fn offsets(random: &mut Random, strings: u32) -> Vec<u32> {
    let long = random.one_in(20);
    let wanted = if long { random.below(150) } else { random.below(4) };
    let mut offsets = Vec::new();
    for _ in 0..wanted {
        let offset = if long { random.below(strings.min(500) as usize) as u32 } else { offset(random, strings) };
        if !offsets.contains(&offset) {
            offsets.push(offset);
        }
    }
    offsets
}

fn infos(random: &mut Random, strings: u32) -> Vec<(Key, Value)> {
    let count = if random.one_in(100) { random.below(400) } else { random.below(7) };
    (0..count)
        .map(|_| {
            let offset = offset(random, strings);
            (key(random, offset), info(random))
        })
        .collect()
}

fn info(random: &mut Random) -> Value {
    if random.one_in(8) {
        return Value::bare();
    }
    let (code, len) = (random.pick(&CODES), site_length(random));
    let shown = vector(random, code, len as usize);
    value(random, code, len, shown)
}

fn formats(random: &mut Random, facts: &Facts, alleles: usize) -> Vec<(Key, Value)> {
    if facts.people == 0 {
        return Vec::new();
    }
    let many = facts.people <= 60 && random.one_in(100);
    let wanted = match many {
        true if random.one_in(2) => 255,
        true => random.within(5, 254) as usize,
        false => random.below(5),
    };
    let keys = format_keys(random, facts, wanted);
    keys.into_iter().map(|number| (key(random, number), format(random, facts, alleles, number, many))).collect()
}

/// Different keys, with GT among them as a rule.
fn format_keys(random: &mut Random, facts: &Facts, wanted: usize) -> Vec<u32> {
    let mut keys = Vec::new();
    if wanted > 4 && facts.strings > 400 {
        keys.extend(1..=wanted as u32);
    }
    while keys.len() < wanted {
        let offset = if random.one_in(2) { facts.gt } else { offset(random, facts.strings) };
        if offset < facts.strings.min(1 << 31) && !keys.contains(&offset) {
            keys.push(offset);
        } else if random.one_in(20) {
            break;
        }
    }
    let first = random.below(keys.len().max(1));
    keys.rotate_left(first);
    keys
}

fn format(random: &mut Random, facts: &Facts, alleles: usize, number: u32, many: bool) -> Value {
    if random.one_in(8) {
        return Value::bare();
    }
    let len = match random.below(12) {
        _ if facts.people >= MANY_PEOPLE => 0,
        0 if facts.people <= 60 && !many => random.within(13, 40),
        1 => 0,
        _ => random.within(1, 3),
    } as u32;
    let is_gt = number == facts.gt;
    let code = if is_gt { random.pick(&[1, 1, 2, 3]) } else { random.pick(&CODES) };
    let shown = people_vectors(random, facts.people, code, len, is_gt.then_some(alleles));
    value(random, code, len, shown)
}

/// A vector for each person, of GT codes where the alleles are given; none for very many people.
pub fn people_vectors(random: &mut Random, people: u32, code: u8, len: u32, alleles: Option<usize>) -> Vec<u32> {
    let people = if people >= MANY_PEOPLE { 0 } else { people };
    (0..people)
        .flat_map(|_| match alleles {
            Some(alleles) => genotype(random, code, len as usize, alleles),
            None => vector(random, code, len as usize),
        })
        .collect()
}
