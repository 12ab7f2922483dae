//! Fetching from a record that was read, by its own site and by sites of other numbers, asked of both libraries.

use sikalumdo::{Field, Kind, Record, Site};

use crate::damage::Input;
use crate::input::{ours, plains};
use crate::random::Random;
use crate::reading::KINDS;
use crate::report::{Answer, Report};

type Told<'a> = (u32, u8, u32, u32, u32, &'a [u8]);

fn told(field: Field<'_>) -> Told<'_> {
    (field.key, field.code, field.len, field.place, field.stop, field.elements)
}

/// A site's numbers in the order of reading; CHROM, POS and rlen, and what is said of GT, are nothing to a fetch.
fn numbers(site: &Site) -> [u64; 13] {
    let mut numbers = [0; 13];
    (numbers[0], numbers[1]) = (site.length.into(), site.border.into());
    let counts = [site.alleles, site.infos, site.formats, site.people];
    counts.into_iter().enumerate().for_each(|(at, count)| numbers[6 + at] = count.into());
    numbers
}

/// Compares the field of one kind and number, and gives the answer.
fn compare_field<'a>(
    report: &mut Report,
    input: &'a Input,
    function: &'static str,
    site: &Site,
    kind: usize,
    number: u32,
) -> Answer<Told<'a>> {
    let s = &input.bytes;
    let ours = ours(sikalumdo::field_of(s, site, KINDS[kind].0, number)).map(told);
    let plain = plains(plain::field_of(s, &numbers(site), KINDS[kind].1, number)).map(|field| {
        (field.key, field.code, field.len, field.first, field.stop, &s[field.first as usize..field.stop as usize])
    });
    report.compare(input, function, format_args!("kind {kind} number {number} by {site:?}"), &ours, &plain);
    ours
}

/// By its own site an accepted record gives the fields that fetching gives, whether or not there is one of that number.
pub fn compare_own(report: &mut Report, input: &Input, site: &Site, kind: usize, number: u32) {
    let field = compare_field(report, input, "field_of", site, kind, number);
    let fetched = ours(sikalumdo::fetch(&input.bytes, &input.facts, KINDS[kind].0, number)).map(told);
    report.require(
        input,
        field == fetched,
        format_args!("kind {kind} number {number}: {field:?}, fetched {fetched:?}"),
    );
}

/// By its own site an accepted record is walked over as by reading it again.
pub fn compare_own_walk(report: &mut Report, input: &Input) {
    let record = Record::read(&input.bytes, &input.facts);
    let pairs = sikalumdo::pairs(&input.bytes, &input.facts);
    let same = record.is_ok_and(|record| pairs.is_ok_and(|pairs| record.pairs().eq(pairs)));
    report.require(input, same, format_args!("the pairs of a record that was read are others"));
}

/// Compares every kind by sites of other numbers: near the record's own or, where it is refused, those of its front.
pub fn compare_others(report: &mut Report, input: &Input, random: &mut Random, own: &Answer<Site>) {
    let near = own.ok().or_else(|| front(&input.bytes)).unwrap_or(NOWHERE);
    for sort in 0..3 {
        let site = if sort == 0 { near } else { other(random, near, input.bytes.len() as u32) };
        for (kind, count) in [1, site.alleles, 1, site.infos, site.formats].into_iter().enumerate() {
            let any = random.below(count.min(300) as usize + 1) as u32;
            for number in [0, any, random.pick(&[1, 2, count.wrapping_sub(1), count & 0xFFFF, u32::MAX])] {
                compare_field(report, input, "field_of others", &site, kind, number).ok();
            }
        }
        let none = ours(sikalumdo::field_of(&input.bytes, &site, Kind(random.next() as u32 | 8), 0)).map(told);
        report.compare(input, "field_of others", format_args!("no kind by {site:?}"), &none, &Err((16, 0)));
    }
}

const NOWHERE: Site = Site {
    length: 0,
    border: 0,
    chrom: -1,
    pos: -1,
    rlen: -1,
    qual_bits: 0,
    alleles: 0,
    infos: 0,
    formats: 0,
    people: 0,
    gt_type: 0,
    gt_len: 0,
    gt_place: 0,
};

/// What the front of a record says, true or not.
fn front(s: &[u8]) -> Option<Site> {
    let word = |at: usize| Some(u32::from_le_bytes(s.get(at..at + 4)?.try_into().ok()?));
    let border = word(0)?.saturating_add(8);
    let length = border.saturating_add(word(4)?);
    let (counts, members) = (word(24)?, word(28)?);
    let (alleles, infos) = (counts >> 16, counts & 0xFFFF);
    let (formats, people) = (members >> 24, members & 0xFF_FFFF);
    Some(Site { length, border, alleles, infos, formats, people, ..NOWHERE })
}

/// A site with some numbers changed: a byte more or less, past the end, too high for its field, or any at all.
fn other(random: &mut Random, mut site: Site, end: u32) -> Site {
    for _ in 0..random.below(3) + 1 {
        let any = random.below(end as usize + 40) as u32;
        let number = match random.below(6) {
            0 => 0,
            1 => random.below(8) as u32,
            2 => random.pick(&[end, end.wrapping_add(1), u32::MAX, u32::MAX - 1, 1 << 31, 65_536, 256, 257]),
            3 => random.next() as u32,
            _ => any,
        };
        let near = random.pick(&[1, u32::MAX, 2, 256, 65_536]);
        let change = |own: u32| if any % 2 == 0 { own.wrapping_add(near) } else { number };
        match random.below(6) {
            0 => site.length = change(site.length),
            1 => site.border = change(site.border),
            2 => site.alleles = change(site.alleles),
            3 => site.infos = change(site.infos),
            4 => site.formats = change(site.formats),
            _ => site.people = change(site.people),
        }
    }
    site
}
