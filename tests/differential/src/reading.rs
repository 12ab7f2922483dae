//! Reading, fetching, showing, walking and tallying of one input, asked of both libraries.

use plain::Kind as Plain;
use sikalumdo::Kind;

use crate::damage::Input;
use crate::input::{ours, plains, some};
use crate::random::Random;
use crate::report::{Answer, Report};
use crate::sites::{compare_own, compare_own_walk};

pub const KINDS: [(Kind, Plain); 5] = [
    (Kind::ID, Plain::Id),
    (Kind::ALLELE, Plain::Allele),
    (Kind::FILTER, Plain::Filter),
    (Kind::INFO, Plain::Info),
    (Kind::FORMAT, Plain::Format),
];

/// Counts an input that was made, compares reading it, and gives the answer.
pub fn compare_record(report: &mut Report, input: &Input) -> Answer<sikalumdo::Site> {
    let answer = compare_read(report, input);
    report.count_record(answer.is_ok_and(|site| has_bare(input, &site)));
    answer
}

/// Whether any value of an accepted record is a bare 00.
fn has_bare(input: &Input, site: &sikalumdo::Site) -> bool {
    let is_bare = |kind: Kind, number: u32| {
        sikalumdo::field_of(&input.bytes, site, kind, number).is_ok_and(|field| field.code == 0)
    };
    let mut pairs = sikalumdo::pairs(&input.bytes, &input.facts).into_iter().flatten();
    is_bare(Kind::FILTER, 0)
        || pairs.any(|pair| pair.code == 0)
        || (0..site.formats).any(|number| is_bare(Kind::FORMAT, number))
}

/// Compares reading, and gives the answer.
pub fn compare_read(report: &mut Report, input: &Input) -> Answer<sikalumdo::Site> {
    let answer = ours(sikalumdo::read(&input.bytes, &input.facts));
    let ours = answer.map(|site| sikalumdo_numbers(&site));
    let plain = plains(plain::read(&input.bytes, &input.plain_facts())).map(|site| plain_numbers(&site));
    report.compare(input, "read", format_args!(""), &ours, &plain);
    answer
}

#[rustfmt::skip]
fn sikalumdo_numbers(site: &sikalumdo::Site) -> [i64; 14] {
    [
        site.length.into(), site.border.into(), site.chrom.into(), site.pos.into(), site.rlen.into(),
        site.qual_bits.into(), site.alleles.into(), site.infos.into(), site.formats.into(), site.people.into(),
        site.gt_type.into(), site.gt_len.into(), site.gt_place.into(), site.vcf_pos().into(),
    ]
}

#[rustfmt::skip]
fn plain_numbers(site: &plain::Site) -> [i64; 14] {
    [
        site.length.into(), site.border.into(), site.contig.into(), site.pos.into(), site.rlen.into(),
        site.qual_bits.into(), site.alleles.into(), site.infos.into(), site.formats.into(), site.people.into(),
        site.gt_type.into(), site.gt_len.into(), site.gt_first.into(), i64::from(site.pos) + 1,
    ]
}

pub fn compare_tally(report: &mut Report, input: &Input) {
    let ours = ours(sikalumdo::tally(&input.bytes, &input.facts));
    let ours = ours.map(|tally| (tally.alleles, tally.people, tally.without, tally.missing, tally.calls));
    let plain = plains(plain::tally(&input.bytes, &input.plain_facts()));
    let plain = plain.map(|tally| {
        let plain::Tally { site, without, missing, counts } = tally;
        (u64::from(site.alleles), u64::from(site.people), without, missing, counts)
    });
    report.compare(input, "tally", format_args!(""), &ours, &plain);
}

/// Compares fetching of one kind and number, and what is shown of its elements.
pub fn compare_fetch(report: &mut Report, input: &Input, random: &mut Random, kind: usize, number: u32) {
    let s = &input.bytes;
    let fetched = ours(sikalumdo::fetch(s, &input.facts, KINDS[kind].0, number));
    let ours = fetched.map(|field| (field.key, field.code, field.len, field.place, field.stop, field.elements));
    let plain = plains(plain::fetch(s, &input.plain_facts(), KINDS[kind].1, number)).map(|field| {
        let elements = &s[field.first as usize..field.stop as usize];
        (field.key, field.code, field.len, field.first, field.stop, elements)
    });
    report.compare(input, "fetch", format_args!("kind {kind} number {number}"), &ours, &plain);
    if let Ok(field) = fetched {
        compare_shown(report, input, random, field.elements, field.code);
    }
}

/// Compares fetching of every kind at the first numbers, at the last and past it, and of kinds that there are not.
pub fn compare_fetches(report: &mut Report, input: &Input, random: &mut Random, site: &Answer<sikalumdo::Site>) {
    for kind in 0..KINDS.len() {
        let count = site.map_or(0, |site| [1, site.alleles, 1, site.infos, site.formats][kind]);
        let any = random.below(count as usize + 1) as u32;
        let mut numbers = vec![0, 1, 2, any, count.saturating_sub(1), count, count + 1, random.next() as u32];
        numbers.sort();
        numbers.dedup();
        let few = if site.is_ok() { numbers.len() } else { 2 };
        for &number in &numbers[..few] {
            compare_fetch(report, input, random, kind, number);
            if let Ok(site) = site {
                compare_own(report, input, site, kind, number);
            }
        }
    }
    for kind in [5, 6, random.next() as u32 | 8] {
        let ours = ours(sikalumdo::fetch(&input.bytes, &input.facts, Kind(kind), random.below(3) as u32));
        let wanted = site.and(Err::<(), _>((16, 0)));
        report.compare(input, "fetch", format_args!("kind {kind}"), &ours.map(|_| ()), &wanted);
    }
}

/// Compares what is shown of a part at its ends and between, also as another type.
fn compare_shown(report: &mut Report, input: &Input, random: &mut Random, part: &[u8], code: u8) {
    let count = part.len();
    let mut ask = |code: u8, index: usize| {
        let ours = some(sikalumdo::shown(part, code, index));
        let plain = some(plain::shown(part, code, index));
        report.compare(input, "shown", format_args!("{part:02X?} of type {code} at {index}"), &ours, &plain);
    };
    for index in 0..(count + 2).min(6) {
        ask(code, index);
    }
    for bound in [count + 1, count / 2 + 2, count / 4 + 2] {
        ask(code, random.below(bound));
        ask(random.below(18) as u8, random.below(bound));
    }
    ask(code, random.pick(&[usize::MAX, usize::MAX / 2 + 1, usize::MAX / 4 + 1, 1 << 32, count, count / 2, count / 4]));
    ask(random.next() as u8, 0);
}

type Pair<'a> = (u32, u8, u32, u32, u32, &'a [u8]);

fn our_pair(s: &[u8], at: usize) -> Answer<Pair<'_>> {
    some(sikalumdo::pair_at(s, at)).map(|pair| (pair.key, pair.code, pair.len, pair.place, pair.next, pair.elements))
}

fn plain_pair(s: &[u8], at: usize) -> Answer<Pair<'_>> {
    some(plain::pair_at(s, at)).map(|pair| {
        let elements = &s[pair.first as usize..pair.stop as usize];
        (pair.key, pair.code, pair.len, pair.first, pair.stop, elements)
    })
}

/// Compares the walk from the first pair to the end and past it.
pub fn compare_walk(report: &mut Report, input: &Input) {
    let s = &input.bytes;
    let opened = ours(sikalumdo::pairs(s, &input.facts));
    let start = plains(plain::info_start(s, &input.plain_facts()));
    let is_open = opened.as_ref().map(|_| ()).map_err(|&refusal| refusal);
    report.compare(input, "pairs", format_args!(""), &is_open, &start.map(|_| ()));
    let (Ok(mut walker), Ok(start)) = (opened, start) else { return };
    compare_own_walk(report, input);
    let mut at = start as usize;
    let mut after_end = 0;
    while after_end < 2 {
        let pair = some(walker.next());
        let ours = pair.map(|pair| (pair.key, pair.code, pair.len, pair.place, pair.next, pair.elements));
        let plain = plain_pair(s, at);
        report.compare(input, "walk", format_args!("at {at}"), &ours, &plain);
        match (ours, plain) {
            (Ok(_), Ok(pair)) => at = pair.4 as usize,
            _ => after_end += 1,
        }
    }
}

/// Compares the pairs at all places of a short input, or some of a long one, and outside it.
pub fn compare_pairs(report: &mut Report, input: &Input, random: &mut Random) {
    let s = &input.bytes;
    let mut ask = |at: usize| {
        report.compare(input, "pair_at", format_args!("{at}"), &our_pair(s, at), &plain_pair(s, at));
    };
    if s.len() < 90 {
        (0..s.len() + 3).for_each(&mut ask);
    } else {
        (0..20).for_each(|_| ask(random.below(s.len() + 3)));
    }
    ask(random.pick(&[usize::MAX, usize::MAX - 1, 1 << 32, 1 << 31, s.len(), s.len() + 1]));
}
