//! The tasks that are timed, each done by the proved library and by the plain one on the same bytes, and checked to
//! come to the same before they are timed.

use std::hint::black_box;

use sikalumdo::{Facts, NameList, Names};

use crate::record::{Format, Record, CONTIGS, GENOTYPE, POS, QUAL, STRINGS, TOTAL};
use crate::timing::{by_turns, Times};

/// A task's line of the table: its name, its times, and what htslib is asked to do for it.
pub struct Task {
    pub name: &'static str,
    pub times: [Times; 2],
    pub htslib: &'static str,
    pub record: Record,
}

fn plain_facts(facts: &Facts) -> plain::Facts {
    plain::Facts { strings: facts.strings, contigs: facts.contigs, people: facts.people, gt: facts.gt }
}

pub fn reading(name: &'static str, record: Record) -> Task {
    let (bytes, facts, plain_facts) = (record.bytes(), record.facts, plain_facts(&record.facts));
    let ours = || sikalumdo::read(black_box(&bytes), &facts).expect("an accepted record");
    let plain = || plain::read(black_box(&bytes), &plain_facts).expect("an accepted record");
    assert_eq!((ours().length, ours().gt_place), (plain().length, plain().gt_first));
    let times = by_turns(ours, plain);
    Task { name, times, htslib: "read", record }
}

/// The numbers that reading told, as fetching takes them.
fn told(site: &plain::Site) -> [u64; 13] {
    let mut numbers = [0; 13];
    numbers[..2].copy_from_slice(&[site.length.into(), site.border.into()]);
    let counts = [site.alleles, site.infos, site.formats, site.people];
    numbers[6..10].copy_from_slice(&counts.map(u64::from));
    numbers
}

/// A record read once, and then each of its FORMAT fields fetched by what reading told.
pub fn fetching(name: &'static str, record: Record) -> Task {
    let (bytes, facts, plain_facts) = (record.bytes(), record.facts, plain_facts(&record.facts));
    let fields = record.formats.len() as u32;
    let ours = || {
        let record = sikalumdo::Record::read(black_box(&bytes), &facts).expect("an accepted record");
        (0..fields).map(|n| record.fetch(sikalumdo::Kind::FORMAT, n).expect("a field").stop).sum::<u32>()
    };
    let plain = || {
        let numbers = told(&plain::read(black_box(&bytes), &plain_facts).expect("an accepted record"));
        (0..fields)
            .map(|n| plain::field_of(&bytes, &numbers, plain::Kind::Format, n).expect("a field").stop)
            .sum::<u32>()
    };
    assert_eq!(ours(), plain());
    let times = by_turns(ours, plain);
    Task { name, times, htslib: "read", record }
}

/// Tallying reads the record first.
pub fn tallying(name: &'static str, record: Record) -> Task {
    let (bytes, facts, plain_facts) = (record.bytes(), record.facts, plain_facts(&record.facts));
    let ours = || sikalumdo::tally(black_box(&bytes), &facts).expect("a tally");
    let plain = || plain::tally(black_box(&bytes), &plain_facts).expect("a tally");
    assert_eq!((ours().without, ours().missing, ours().calls), (plain().without, plain().missing, plain().counts));
    let times = by_turns(ours, plain);
    Task { name, times, htslib: "tally", record }
}

/// Those who stay where forty people have gone, spread over all.
fn stay(people: u32) -> Vec<u32> {
    let every = people / 40;
    (0..people).filter(|person| person % every != every / 2).collect()
}

/// Choosing reads the record first.
pub fn choosing(name: &'static str, record: Record) -> Task {
    let (bytes, facts, plain_facts) = (record.bytes(), record.facts, plain_facts(&record.facts));
    let choice = stay(facts.people);
    assert_eq!(choice.len() + 40, facts.people as usize);
    let (mut our_buf, mut plain_buf) = (vec![0; bytes.len()], vec![0; bytes.len()]);
    let mut ours = || sikalumdo::choose(black_box(&bytes), &facts, &choice, &mut our_buf).expect("a choice");
    let mut plain = || plain::choose(black_box(&bytes), &plain_facts, &choice, &mut plain_buf).expect("a choice");
    assert_eq!(ours(), plain() as usize);
    let times = by_turns(&mut ours, &mut plain);
    assert_eq!(our_buf, plain_buf);
    Task { name, times, htslib: "choose", record }
}

fn plain_names(names: Names<'_>) -> plain::Names<'_> {
    plain::Names { text: names.text, ends: names.ends }
}

/// Printing reads the record first. Both have more room than the line takes.
pub fn printing(name: &'static str, record: Record) -> Task {
    let (bytes, facts, plain_facts) = (record.bytes(), record.facts, plain_facts(&record.facts));
    let (strings, contigs): (NameList, NameList) = (STRINGS.into_iter().collect(), CONTIGS.into_iter().collect());
    let (strings, contigs) = (strings.lend(), contigs.lend());
    let room = 64 + 4 * facts.people as usize;
    let (mut our_buf, mut plain_buf) = (vec![0; room], vec![0; room]);
    let mut ours = || sikalumdo::vcf_line(black_box(&bytes), &facts, strings, contigs, &mut our_buf).expect("a line");
    let (plain_strings, plain_contigs) = (plain_names(strings), plain_names(contigs));
    let mut plain = || {
        plain::vcf_line(black_box(&bytes), &plain_facts, plain_strings, plain_contigs, &mut plain_buf).expect("a line")
    };
    assert_eq!(ours(), plain());
    let times = by_turns(&mut ours, &mut plain);
    assert_eq!(our_buf, plain_buf);
    Task { name, times, htslib: "line", record }
}

/// Declares a function that builds the record turn by turn with one library's builder; they differ in how begin takes
/// the facts.
macro_rules! builds {
    ($name:ident, $module:ident, $facts:ty) => {
        fn $name(formats: &[Format], facts: $facts, buf: &mut [u8]) -> Result<u32, $module::Refusal> {
            let mut builder = $module::Builder::fresh();
            builder.begin(buf, facts, 0, POS, 1, QUAL)?;
            builder.id(buf, b"")?;
            builder.allele(buf, b"G")?;
            builder.allele(buf, b"A")?;
            builder.filter(buf, &[])?;
            builder.info_integers(buf, TOTAL as i32, &[14])?;
            for format in formats {
                builder.format_integers(buf, format.key as i32, format.len, &format.numbers)?;
            }
            builder.end(buf)
        }
    };
}

builds!(build_ours, sikalumdo, &Facts);
builds!(build_plain, plain, plain::Facts);

pub fn building(name: &'static str, record: Record) -> Task {
    let (bytes, facts, plain_facts) = (record.bytes(), record.facts, plain_facts(&record.facts));
    let (mut our_buf, mut plain_buf) = (vec![0; bytes.len()], vec![0; bytes.len()]);
    let formats = &record.formats;
    assert_eq!(formats[0].key, GENOTYPE);
    let mut ours = || build_ours(black_box(formats), &facts, &mut our_buf).expect("every turn");
    let mut plain = || build_plain(black_box(formats), plain_facts, &mut plain_buf).expect("every turn");
    let times = by_turns(&mut ours, &mut plain);
    assert_eq!((&our_buf, &plain_buf), (&bytes, &bytes));
    Task { name, times, htslib: "build", record }
}
