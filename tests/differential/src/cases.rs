//! Cases: what is made from a case's numbers, and what is asked about it.

use sikalumdo::Facts;

use crate::building::{sequence, sequence_to_limit};
use crate::choosing::compare_choices;
use crate::damage::{damaged, noise, Input};
use crate::elements::{width, CODES};
use crate::filters::compare_filters;
use crate::lines::compare_lines;
use crate::random::Random;
use crate::reading::{
    compare_fetch, compare_fetches, compare_pairs, compare_record, compare_tally, compare_walk, KINDS,
};
use crate::rebuild;
use crate::record::{set_lengths, Key, Record, Value};
use crate::report::Report;
use crate::shape::{facts, people_vectors, record, record_of};
use crate::sites::{compare_others, compare_own};
use crate::turns::compare_turns;

/// Makes and compares the case of a number.
pub fn run(report: &mut Report, seed: u64, case: u64) {
    report.begin_case(case);
    let random = &mut Random::of_case(seed, case);
    match random.below(1_000) {
        0 => large_record(report, random),
        1 => drop(compare_turns(report, &sequence_to_limit(random))),
        2..=7 => sweep(report, random),
        8..=17 => compare_filters(report, random),
        18..=299 => sound_record(report, random),
        300..=649 => damaged_records(report, random),
        650..=699 => {
            let facts = facts(random);
            compare_all(report, &noise(random, facts), random);
        }
        _ => drop(compare_turns(report, &sequence(random))),
    }
}

/// Everything that can be asked about an input; an accepted one is built again. Gives what was built.
fn compare_all(report: &mut Report, input: &Input, random: &mut Random) -> Option<Vec<u8>> {
    let site = compare_record(report, input);
    compare_tally(report, input);
    compare_fetches(report, input, random, &site);
    compare_others(report, input, random, &site);
    compare_walk(report, input);
    compare_pairs(report, input, random);
    compare_choices(report, input, random, site.is_ok());
    compare_lines(report, input, random, site.is_ok());
    let site = site.ok()?;
    compare_turns(report, &rebuild::sequence(input, &site, random.next()))
}

/// A sound record is accepted, with and without bytes after it, and built again it is the tight record of its parts:
/// itself if it is tight, and itself with 01 in place of each bare 00 if it is tight but for those.
fn sound_record(report: &mut Report, random: &mut Random) {
    let record = record(random);
    let mut input = Input { facts: record.facts, bytes: record.lay().bytes };
    if random.one_in(4) {
        let more = random.below(40) + 1;
        input.bytes.extend(random.bytes(more));
    }
    let built = compare_all(report, &input, random);
    let tight = record.tight().lay().bytes;
    report.require(&input, built == Some(tight), format_args!("a sound record isn't built again: {built:02X?}"));
}

/// Several damaged versions of one record.
fn damaged_records(report: &mut Report, random: &mut Random) {
    let record = record(random);
    for _ in 0..6 {
        let mut input = damaged(random, &record);
        if random.one_in(6) {
            input.bytes.push(random.next() as u8);
        }
        compare_all(report, &input, random);
    }
}

/// A short record cut short at each length and with each byte changed in several ways.
fn sweep(report: &mut Report, random: &mut Random) {
    let (sound, border) = short_record(random);
    for length in 0..=sound.bytes.len() {
        let mut cut = Input { facts: sound.facts, bytes: sound.bytes[..length].to_vec() };
        compare_some(report, &cut, random);
        if length >= 8 {
            set_lengths(&mut cut.bytes, border.min(length));
            compare_some(report, &cut, random);
        }
    }
    for place in 0..sound.bytes.len() {
        let byte = sound.bytes[place];
        let mut changed = sound.clone();
        let any = random.next() as u8;
        let near = [byte.wrapping_add(1), byte.wrapping_sub(1), byte ^ 0x80, byte ^ 0x10];
        // A descriptor of type 0 and the same length among them, and a bare 00.
        for other in near.into_iter().chain([byte & 0xF0, 0, 0x81, 0x83, 0xFF, any]) {
            changed.bytes[place] = other;
            compare_some(report, &changed, random);
        }
    }
}

/// A sound record of at most 160 bytes, and where its site block ends.
fn short_record(random: &mut Random) -> (Input, usize) {
    loop {
        let facts = Facts { people: random.below(6) as u32, ..facts(random) };
        let bytes = record_of(random, facts).lay().bytes;
        if bytes.len() <= 160 {
            let border = 8 + bytes[0] as usize;
            return (Input { facts, bytes }, border);
        }
    }
}

/// What is asked about one of many inputs that are much alike.
fn compare_some(report: &mut Report, input: &Input, random: &mut Random) {
    let accepted = compare_record(report, input).is_ok();
    compare_tally(report, input);
    compare_walk(report, input);
    compare_fetch(report, input, random, 4, 0);
    if accepted {
        compare_fetch(report, input, random, 2, 0);
        compare_fetch(report, input, random, 3, 0);
        compare_pairs(report, input, random);
        compare_choices(report, input, random, false);
        compare_lines(report, input, random, false);
    }
}

/// A record with the most bytes, alleles or INFO fields, or one more byte than the most.
fn large_record(report: &mut Report, random: &mut Random) {
    let facts = Facts { people: random.pick(&[1, 5, 1_000]), ..facts(random) };
    let mut record = Record { formats: Vec::new(), ..record_of(random, facts) };
    let one = Value { code: 7, len: 1, length_code: 0, shown: vec![0x41] };
    match random.below(4) {
        0 => {
            record.alleles = vec![one; 65_535];
            record.formats.extend(wide_genotypes(random, &facts));
        }
        1 => {
            let value = if random.one_in(2) { Value::bare() } else { one };
            record.infos = vec![(Key { number: 0, code: 2 }, value); 65_535];
        }
        _ => fill(random, &mut record),
    }
    let input = Input { facts, bytes: record.lay().bytes };
    let site = compare_record(report, &input);
    compare_tally(report, &input);
    compare_walk(report, &input);
    for kind in 0..KINDS.len() {
        compare_fetch(report, &input, random, kind, 0);
        site.iter().for_each(|site| compare_own(report, &input, site, kind, random.below(65_536) as u32));
    }
    compare_choices(report, &input, random, false);
    compare_lines(report, &input, random, false);
}

/// GT of codes that only the most alleles have, where the facts have a GT.
fn wide_genotypes(random: &mut Random, facts: &Facts) -> Option<(Key, Value)> {
    // One allele more than the record has gives codes that are too high.
    let alleles = 65_535 + random.below(2);
    let shown = people_vectors(random, facts.people, 3, 2, Some(alleles));
    let value = Value { code: 3, len: 2, length_code: 0, shown };
    (facts.gt < facts.strings.min(1 << 31)).then_some((Key { number: facts.gt, code: 3 }, value))
}

/// Fills a record with one FORMAT field up to the most bytes, or up to a byte more; what is too little for a person
/// goes to the ID.
fn fill(random: &mut Random, record: &mut Record) {
    let code = random.pick(&CODES);
    let people = record.facts.people as usize;
    record.id = Value { code: 7, len: 15, length_code: 3, shown: vec![0x61; 15] };
    // A key of five bytes, and a descriptor with its true length of six.
    let room = (1 << 24) + random.below(2) - record.lay().bytes.len() - 11;
    let len = room / (people * width(code));
    record.id.shown.resize(15 + room % (people * width(code)), 0);
    record.id.len = record.id.shown.len() as u32;
    let number = if code <= 3 && record.facts.gt < record.facts.strings.min(1 << 31) { record.facts.gt } else { 0 };
    let value = Value { code, len: len as u32, length_code: 3, shown: vec![1; people * len] };
    record.formats = vec![(Key { number, code: 3 }, value)];
}
