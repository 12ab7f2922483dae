//! The repository's sample record of two people, through every function of the crate; and the same with bare 00s.

use sikalumdo::{choose, fetch, field_of, pair_at, pairs, read, shown, tally, vcf_line};
use sikalumdo::{Builder, Facts, Kind, NameList, Names, Record, Refusal, Site};

const PATTERN: u8 = 0xA5;
/// The place of the FORMAT and people counts, the last field that end fills in.
const GENOTYPE_COUNTS: usize = 28;

/// The facts and the one record of the sample file.
fn sample() -> (Facts, Vec<u8>) {
    let file = concat!(env!("CARGO_MANIFEST_DIR"), "/../../samples/two-people.hex");
    let text = std::fs::read_to_string(file).expect("the sample file");
    let (first, record) = text.split_once('\n').expect("two lines");
    let fact = |at| u32::from_str_radix(&first[at..at + 8], 16).expect("eight digits");
    let facts = Facts { strings: fact(0), contigs: fact(8), people: fact(16), gt: fact(24) };
    (facts, bytes(record.trim_end()))
}

fn bytes(digits: &str) -> Vec<u8> {
    let byte = |at| u8::from_str_radix(&digits[at..at + 2], 16).expect("two digits");
    (0..digits.len()).step_by(2).map(byte).collect()
}

/// The sample's turns, up to the number given.
fn build(buf: &mut [u8], turns: usize) -> Result<(Builder, u32), Refusal> {
    let (facts, mut builder, mut written) = (sample().0, Builder::fresh(), 0);
    for turn in 0..turns {
        written = take(&mut builder, buf, &facts, turn)?;
    }
    Ok((builder, written))
}

fn take(builder: &mut Builder, buf: &mut [u8], facts: &Facts, turn: usize) -> Result<u32, Refusal> {
    match turn {
        0 => builder.begin(buf, facts, 0, 14_369, 1, 0x41E8_0000),
        1 => builder.id(buf, b""),
        2 => builder.allele(buf, b"G"),
        3 => builder.allele(buf, b"A"),
        4 => builder.filter(buf, &[0]),
        5 => builder.info_integers(buf, 2, &[14]),
        6 => builder.format_integers(buf, 3, 2, &[2, 3, 4, i32::MIN + 1]),
        _ => builder.end(buf),
    }
}

const TURNS: usize = 8;

#[test]
fn the_sample_is_read() {
    let (facts, mut record) = sample();
    let site = read(&record, &facts).expect("an accepted record");
    assert_eq!((site.length, site.border), (50, 43));
    assert_eq!((site.chrom, site.pos, site.rlen, site.qual_bits), (0, 14_369, 1, 0x41E8_0000));
    assert_eq!((site.alleles, site.infos, site.formats, site.people), (2, 1, 1, 2));
    assert_eq!((site.gt_type, site.gt_len, site.gt_place), (1, 2, 46));
    record.push(PATTERN);
    assert_eq!(read(&record, &facts), Ok(site));
}

#[test]
fn positions_are_told_as_vcf_counts_them() {
    let (facts, mut record) = sample();
    assert_eq!(read(&record, &facts).expect("an accepted record").vcf_pos(), 14_370);
    for (pos, told) in [(-1, 0), (0, 1), (i32::MAX - 1, i32::MAX)] {
        record[12..16].copy_from_slice(&i32::to_le_bytes(pos));
        let site = read(&record, &facts).expect("an accepted record");
        assert_eq!((site.pos, site.vcf_pos()), (pos, told));
    }
}

#[test]
fn values_are_fetched_and_shown() {
    let (facts, record) = sample();
    let reference = fetch(&record, &facts, Kind::ALLELE, 0).expect("REF");
    assert_eq!(reference.elements, b"G");
    let gt = fetch(&record, &facts, Kind::FORMAT, 0).expect("GT");
    assert_eq!((gt.key, gt.code, gt.len, gt.place, gt.stop), (3, 1, 2, 46, 50));
    assert_eq!(gt.elements.as_ptr(), record[46..].as_ptr());
    let codes: Vec<_> = (0..5).map(|index| shown(gt.elements, gt.code, index)).collect();
    assert_eq!(codes, [Some(2), Some(3), Some(4), Some(0x8000_0001), None]);
    for (kind, number) in [(Kind::ID, 1), (Kind::INFO, 1), (Kind(5), 0)] {
        assert_eq!(fetch(&record, &facts, kind, number), Err(Refusal { number: 16, place: 0 }));
    }
}

const KINDS: [Kind; 5] = [Kind::ID, Kind::ALLELE, Kind::FILTER, Kind::INFO, Kind::FORMAT];

#[test]
fn a_record_that_was_read_is_fetched_from() {
    let (facts, data) = sample();
    for data in [data, bare()] {
        let next = [&data[..], &[PATTERN]].concat();
        let record = Record::read(&next, &facts).expect("an accepted record");
        assert_eq!((record.bytes(), *record.site()), (&data[..], read(&data, &facts).expect("the same record")));
        for (kind, count) in KINDS.into_iter().zip([1, 2, 1, 1, 1]) {
            for number in 0..count + 2 {
                let wanted = fetch(&next, &facts, kind, number);
                assert_eq!((record.fetch(kind, number), wanted.is_ok()), (wanted, number < count));
                assert_eq!(field_of(&next, record.site(), kind, number), wanted);
            }
        }
        assert_eq!(record.fetch(Kind(5), 0), Err(Refusal { number: 16, place: 0 }));
        assert!(record.pairs().eq(pairs(&next, &facts).expect("an accepted record")));
    }
    assert_eq!(Record::read(&[], &facts), Err(Refusal { number: 1, place: 0 }));
}

/// A site of any numbers gives a field inside the bytes, or 16.
#[test]
fn other_sites_are_safe() {
    let (facts, record) = sample();
    let site = read(&record, &facts).expect("an accepted record");
    let numbers = [0, 1, 31, 33, 45, 49, 51, 255, 256, 65_535, 65_536, u32::MAX];
    let others = numbers.into_iter().flat_map(|x| {
        let all = Site { length: x, border: x, alleles: x, infos: x, formats: x, people: x, ..site };
        let (length, border) = (Site { length: x, ..site }, Site { border: x, ..site });
        let (alleles, infos) = (Site { alleles: x, ..site }, Site { infos: x, ..site });
        [all, length, border, alleles, infos, Site { formats: x, ..site }, Site { people: x, ..site }]
    });
    for other in others {
        for kind in KINDS.into_iter().chain([Kind(5), Kind(u32::MAX)]) {
            for number in [0, 1, 2, u32::MAX] {
                match field_of(&record, &other, kind, number) {
                    Ok(field) => assert_eq!(field.elements, &record[field.place as usize..field.stop as usize]),
                    Err(refusal) => assert_eq!(refusal, Refusal { number: 16, place: 0 }),
                }
            }
        }
    }
    let one = field_of(&record, &Site { formats: 257, people: 1, ..site }, Kind::FORMAT, 0).expect("one person's GT");
    assert_eq!(one.elements, [2, 3]);
}

#[test]
fn pairs_are_walked() {
    let (facts, record) = sample();
    let mut walker = pairs(&record, &facts).expect("an accepted record");
    let pair = walker.next().expect("one pair");
    assert_eq!((pair.key, pair.code, pair.len, pair.place, pair.next), (2, 1, 1, 42, 43));
    assert_eq!(pair.elements, [14]);
    assert_eq!((walker.next(), walker.next()), (None, None));
    assert_eq!(pair_at(&record, 39), Some(pair));
    assert_eq!(pair_at(&record[..42], 39), None);
    assert_eq!(pair_at(&[], usize::MAX), None);
}

#[test]
fn genotypes_are_tallied() {
    let (facts, record) = sample();
    let tally = tally(&record, &facts).expect("a tally");
    assert_eq!((tally.alleles, tally.people, tally.without, tally.missing), (2, 2, 0, 0));
    assert_eq!((&tally.calls[..2], tally.calls.iter().sum::<u64>()), (&[2, 1][..], 3));
}

#[test]
fn people_are_chosen() {
    let (facts, record) = sample();
    let mut buf = [PATTERN; 60];
    assert_eq!(choose(&record, &facts, &[1], &mut buf), Ok(48));
    let mut wanted = record.clone();
    (wanted[4], wanted[GENOTYPE_COUNTS]) = (5, 1);
    wanted.drain(46..48);
    assert_eq!((&buf[..48], &buf[48..]), (&wanted[..], &[PATTERN; 12][..]));
    assert_eq!(choose(&record, &facts, &[], &mut buf), Ok(43));
}

const STRINGS: Names = Names { text: b"PASSq10DPGT", ends: &[4, 7, 9, 11] };
const CONTIGS: Names = Names { text: b"20", ends: &[2] };

#[test]
fn a_line_is_written() {
    let (facts, record) = sample();
    let (wanted, mut buf) = (b"20\t14370\t.\tG\tA\t29\tPASS\t.\tGT\t0|0\t1\n", [PATTERN; 60]);
    assert_eq!(vcf_line(&record, &facts, STRINGS, CONTIGS, &mut buf), Ok(wanted.len()));
    assert_eq!((&buf[..34], &buf[34..]), (&wanted[..], &[PATTERN; 26][..]));
    let bare = "20\t14370\t.\tG\tA\t29\t.\t.\tGT\t.\t.\n";
    let length = vcf_line(&self::bare(), &facts, STRINGS, CONTIGS, &mut buf).expect("a line");
    assert_eq!(std::str::from_utf8(&buf[..length]), Ok(bare));
    let no_gt = Facts { gt: u32::MAX, ..facts };
    let length = vcf_line(&record, &no_gt, STRINGS, CONTIGS, &mut buf).expect("a line");
    assert_eq!(&buf[..length], b"20\t14370\t.\tG\tA\t29\tPASS\t.\n");
}

#[test]
fn names_are_lent() {
    let (facts, mut record) = sample();
    // FILTER of the offset 1.
    record[38] = 1;
    let filter = |strings: Names<'_>| {
        let mut buf = [PATTERN; 80];
        let length = vcf_line(&record, &facts, strings, CONTIGS, &mut buf).expect("a line");
        buf[..length].split(|&byte| byte == b'\t').nth(6).expect("FILTER").to_vec()
    };
    assert_eq!(filter(STRINGS), b"q10");
    assert_eq!(filter(Names { text: b"abcdef", ends: &[4, 9, 0, 0, 0] }), b"ef");
    assert_eq!(filter(Names { text: b"abcdef", ends: &[4, 2, 6, 6] }), b"");
    assert_eq!(filter(Names { text: b"a\0\0b", ends: &[2, 4, 4, 4] }), b"");
    let list: NameList = [&b"PASS"[..], b"s50\0", b"", b"GT"].into_iter().collect();
    assert_eq!(filter(list.lend()), b"s50");
    assert_eq!((list.lend().text, list.lend().ends), (&b"PASSs50\0GT"[..], &[4, 8, 8, 10][..]));
}

#[test]
fn a_refused_line_writes_nothing() {
    let (facts, record) = sample();
    let (few, none) = (Names { ends: &[4, 7, 9], ..STRINGS }, Names { text: b"", ends: &[] });
    let refuse = |s: &[u8], strings: Names<'_>, contigs: Names<'_>, room: usize| {
        let mut buf = vec![PATTERN; room];
        let refusal = vcf_line(s, &facts, strings, contigs, &mut buf).expect_err("a refusal");
        assert!(buf.iter().all(|&byte| byte == PATTERN));
        (refusal.number, refusal.place)
    };
    let mut half = record.clone();
    half[20..24].copy_from_slice(&0.5f32.to_le_bytes());
    assert_eq!(refuse(&record[..49], few, none, 0), (1, 0));
    assert_eq!(refuse(&half, few, none, 0), (17, 0));
    assert_eq!(refuse(&record, few, CONTIGS, 0), (18, 0));
    assert_eq!(refuse(&record, STRINGS, none, 60), (18, 0));
    (0..34).for_each(|room| assert_eq!(refuse(&record, STRINGS, CONTIGS, room), (13, 0)));
}

/// The sample's record with a bare 00 for FILTER, for the INFO value and for GT.
fn bare() -> Vec<u8> {
    let mut record = sample().1;
    record.truncate(37);
    record.extend([0x00, 0x11, 0x02, 0x00, 0x11, 0x03, 0x00]);
    (record[0], record[4]) = (33, 3);
    record
}

#[test]
fn a_bare_00_is_fetched_and_walked_over() {
    let (facts, record) = (sample().0, bare());
    let site = read(&record, &facts).expect("an accepted record");
    assert_eq!((site.length, site.gt_type, site.gt_len, site.gt_place), (44, 0, 0, 44));
    for (kind, key, place) in [(Kind::FILTER, 0, 38), (Kind::INFO, 2, 41), (Kind::FORMAT, 3, 44)] {
        let field = fetch(&record, &facts, kind, 0).expect("a missing value");
        assert_eq!((field.key, field.code, field.len, field.place, field.stop), (key, 0, 0, place, place));
        assert_eq!((field.elements, shown(field.elements, field.code, 0)), (&[][..], None));
    }
    let mut walker = pairs(&record, &facts).expect("an accepted record");
    let pair = walker.next().expect("one pair");
    assert_eq!((pair.key, pair.code, pair.len, pair.place, pair.next), (2, 0, 0, 41, 41));
    assert_eq!((pair.elements, walker.next()), (&[][..], None));
}

#[test]
fn a_bare_00_is_tallied_and_chosen() {
    let (facts, mut record) = (sample().0, bare());
    let tally = tally(&record, &facts).expect("a tally");
    assert_eq!((tally.people, tally.without, tally.missing, tally.calls), (2, 2, 0, [0; 64]));
    let mut buf = [PATTERN; 60];
    assert_eq!(choose(&record, &facts, &[1], &mut buf), Ok(44));
    record[GENOTYPE_COUNTS] = 1;
    assert_eq!((&buf[..44], &buf[44..]), (&record[..], &[PATTERN; 16][..]));
}

#[test]
fn type_0_is_refused_elsewhere() {
    let facts = sample().0;
    // 00 for the ID, REF and the two keys; other lengths for FILTER, the INFO value and GT.
    for (place, byte) in [(32, 0x00), (33, 0x00), (38, 0x00), (41, 0x00), (37, 0x10), (40, 0xF0), (43, 0x20)] {
        let mut record = bare();
        record[place] = byte;
        assert_eq!(read(&record, &facts), Err(Refusal { number: 6, place: place as u32 }));
    }
}

#[test]
fn a_refusal_writes_nothing() {
    let (facts, record) = sample();
    let refuse = |s: &[u8], choice: &[u32], room: usize| {
        let mut buf = vec![PATTERN; room];
        let refusal = choose(s, &facts, choice, &mut buf).expect_err("a refusal");
        assert!(buf.iter().all(|&byte| byte == PATTERN));
        refusal
    };
    assert_eq!(refuse(&record[..49], &[1], 60), Refusal { number: 1, place: 0 });
    assert_eq!(refuse(&record, &[1, 1], 60), Refusal { number: 14, place: 0 });
    assert_eq!(refuse(&record, &[2], 60), Refusal { number: 14, place: 0 });
    assert_eq!(refuse(&record, &[1], 47), Refusal { number: 13, place: 0 });
    let mut damaged = record.clone();
    damaged[49] = 6;
    assert_eq!(refuse(&damaged, &[1], 60), Refusal { number: 10, place: 49 });
}

#[test]
fn the_sample_is_built_again() {
    let (_, record) = sample();
    let mut buf = [PATTERN; 60];
    let (mut builder, written) = build(&mut buf, TURNS).expect("every turn");
    assert_eq!((&buf[..written as usize], &buf[50..]), (&record[..], &[PATTERN; 10][..]));
    assert_eq!(builder.end(&mut buf), Err(Refusal { number: 12, place: 0 }));
}

#[test]
fn a_refused_turn_keeps_state_and_buffer() {
    let facts = sample().0;
    let mut buf = [PATTERN; 60];
    for turns in 0..TURNS {
        buf.fill(PATTERN);
        let (builder, written) = build(&mut buf, turns).expect("the turns before");
        let (mut again, before) = (builder.clone(), buf);
        let room = if turns == 7 { GENOTYPE_COUNTS + 3 } else { written as usize };
        assert_eq!(take(&mut again, &mut buf[..room], &facts, turns), Err(Refusal { number: 13, place: 0 }));
        assert_eq!((&again, buf), (&builder, before));
        assert!(take(&mut again, &mut buf, &facts, turns).is_ok());
    }
}

#[test]
fn a_refusal_says_what_it_is() {
    let refusal = Refusal { number: 9, place: 47 };
    assert!(refusal.to_string().starts_with("refusal 9 at 47: "));
}
