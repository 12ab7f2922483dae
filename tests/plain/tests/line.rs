//! VCF lines: how names are lent, each column, each kind of call, and the order of the refusals.

use plain::{vcf_line, Builder, Facts, Names, Refusal};

const FACTS: Facts = Facts { strings: 4, contigs: 1, people: 2, gt: 3 };
const STRINGS: Names = Names { text: b"PASSq10DPGT", ends: &[4, 7, 9, 11] };
const CONTIGS: Names = Names { text: b"20", ends: &[2] };
const MISSING: i32 = i32::MIN;
const END: i32 = i32::MIN + 1;
/// The bits of QUAL 29, and those that say that there is none.
const QUAL: u32 = 0x41E8_0000;
const NO_QUAL: u32 = 0x7F80_0001;
const ROOM: usize = 4096;

/// What a record of the tests may have of its own; it has POS 14369 and the facts above.
struct Given<'a> {
    id: &'a [u8],
    alleles: &'a [&'a [u8]],
    qual: u32,
    filter: &'a [i32],
    /// GT's length and codes, if there is GT.
    gt: Option<(u32, &'a [i32])>,
}

const GIVEN: Given =
    Given { id: b"", alleles: &[b"G", b"A"], qual: QUAL, filter: &[0], gt: Some((2, &[2, 3, 4, END])) };

fn record(given: Given, pos: i32) -> Vec<u8> {
    let (mut buf, mut builder) = (vec![0; ROOM], Builder::fresh());
    builder.begin(&mut buf, FACTS, 0, pos, 1, given.qual).unwrap();
    builder.id(&mut buf, given.id).unwrap();
    given.alleles.iter().for_each(|allele| assert!(builder.allele(&mut buf, allele).is_ok()));
    builder.filter(&mut buf, given.filter).unwrap();
    builder.info_integers(&mut buf, 2, &[14]).unwrap();
    if let Some((len, codes)) = given.gt {
        builder.format_integers(&mut buf, FACTS.gt as i32, len, codes).unwrap();
    }
    let length = builder.end(&mut buf).unwrap();
    buf.truncate(length as usize);
    buf
}

/// The line of a record, which leaves the rest of the buffer alone; or the refusal, which leaves all of it.
fn line_by(record: &[u8], strings: Names, contigs: Names) -> Result<String, Refusal> {
    let mut buf = vec![0x5A; ROOM];
    let length = vcf_line(record, &FACTS, strings, contigs, &mut buf);
    assert!(buf[length.unwrap_or(0)..].iter().all(|&byte| byte == 0x5A));
    length.map(|length| String::from_utf8(buf[..length].to_vec()).unwrap())
}

fn line(given: Given) -> Result<String, Refusal> {
    line_by(&record(given, 14_369), STRINGS, CONTIGS)
}

/// The column of a number, from 0, of a record's line.
fn column(given: Given, number: usize) -> String {
    let line = line(given).unwrap();
    line.trim_end_matches('\n').split('\t').nth(number).unwrap().to_string()
}

fn refused<T>(number: u32) -> Result<T, Refusal> {
    Err(Refusal { number, place: 0 })
}

#[test]
fn the_sample() {
    assert_eq!(line(GIVEN).unwrap(), "20\t14370\t.\tG\tA\t29\tPASS\t.\tGT\t0|0\t1\n");
}

#[test]
fn positions() {
    for (pos, printed) in [(-1, "0"), (0, "1"), (2_147_483_646, "2147483647")] {
        let line = line_by(&record(GIVEN, pos), STRINGS, CONTIGS).unwrap();
        assert_eq!(line.split('\t').nth(1), Some(printed));
    }
}

#[test]
fn ids_and_alleles() {
    for (id, printed) in [(&b"rs1"[..], "rs1"), (b"rs1\0\0", "rs1"), (b"\0\0", "."), (b".", "."), (b"a;b", "a;b")] {
        assert_eq!(column(Given { id, ..GIVEN }, 2), printed);
    }
    let gt = Some((1, &[2, 2][..]));
    assert_eq!(column(Given { alleles: &[b"ACG"], gt, ..GIVEN }, 4), ".");
    assert_eq!(column(Given { alleles: &[b"A", b"C", b"<DEL>", b"*"], ..GIVEN }, 4), "C,<DEL>,*");
}

/// Whole numbers from 0 to 16,777,215, and negative zero; nothing else that is no missing mark.
#[test]
fn quals() {
    let bits = |qual: f32| qual.to_bits();
    let printed = [(bits(0.0), "0"), (bits(-0.0), "0"), (bits(10.0), "10"), (bits(16_777_215.0), "16777215")];
    for (qual, printed) in printed.into_iter().chain([(NO_QUAL, ".")]) {
        assert_eq!(column(Given { qual, ..GIVEN }, 5), printed);
    }
    let most = [16_777_216.0, f32::INFINITY, f32::MAX].map(bits);
    let parts = [0.5, 29.5, 8_388_607.5, -1.0, f32::NEG_INFINITY, f32::MIN_POSITIVE].map(bits);
    let others = [1, 0x8000_0001, 0x7F80_0008, 0x7FC0_0000, 0xFF80_0001];
    for qual in most.into_iter().chain(parts).chain(others) {
        assert_eq!(line(Given { qual, ..GIVEN }), refused(17));
    }
}

#[test]
fn filters() {
    for (filter, printed) in [(&[][..], "."), (&[1], "q10"), (&[2, 0, 1], "DP;PASS;q10")] {
        assert_eq!(column(Given { filter, ..GIVEN }, 6), printed);
    }
}

/// Ends that fall or lie past the text, names with zero bytes, and empty ones, which print as nothing.
#[test]
fn names() {
    let all = record(Given { filter: &[0, 1, 2, 3], ..GIVEN }, 0);
    let printed = |text: &[u8], ends: &[u32]| {
        let line = line_by(&all, Names { text, ends }, CONTIGS).unwrap();
        line.split('\t').nth(6).unwrap().to_string()
    };
    assert_eq!(printed(b"abcdef", &[4, 2, 6, 6]), "abcd;;cdef;");
    assert_eq!(printed(b"abcdef", &[4, 9, 6, 8]), "abcd;ef;;");
    assert_eq!(printed(b"ab\0cd\0", &[4, 5, 6, u32::MAX]), "ab;d;;");
    assert_eq!(printed(b"", &[1, 2, 3, 4, 5]), ";;;");
    let nothing = line_by(&all, STRINGS, Names { text: b"\0x", ends: &[2, 7] }).unwrap();
    assert!(nothing.starts_with("\t1\t"));
}

#[test]
fn calls() {
    let call = |codes: [i32; 3]| {
        let gt = Some((3, &[codes, [END; 3]].concat()[..]));
        let line = line(Given { alleles: &[b"A", b"C", b"G"], gt, ..GIVEN }).unwrap();
        let (_, people) = line.split_once("\tGT\t").unwrap();
        people.strip_suffix("\t.\n").unwrap().to_string()
    };
    assert_eq!(call([2, END, END]), "0");
    assert_eq!(call([3, 4, 7]), "0/1|2");
    assert_eq!(call([MISSING, MISSING, END]), "./.");
    assert_eq!(call([2, 1, 0]), "0|./.");
    assert_eq!(call([1, MISSING, 5]), "./.|1");
    assert_eq!(call([END; 3]), ".");
}

#[test]
fn calls_of_many_alleles() {
    let alleles = [&b"A"[..]; 130];
    let line = line(Given { alleles: &alleles, gt: Some((1, &[261, 20])), ..GIVEN }).unwrap();
    assert!(line.ends_with("\tGT\t129\t9\n"), "{line}");
}

/// Eight columns without GT; a dot for each person where nobody has one.
#[test]
fn columns() {
    assert_eq!(line(Given { gt: None, ..GIVEN }).unwrap(), "20\t14370\t.\tG\tA\t29\tPASS\t.\n");
    let mut empty = record(Given { gt: Some((0, &[])), ..GIVEN }, 14_369);
    let wanted = "20\t14370\t.\tG\tA\t29\tPASS\t.\tGT\t.\t.\n";
    assert_eq!(line_by(&empty, STRINGS, CONTIGS).unwrap(), wanted);
    // The last byte is GT's descriptor, 01; a bare 00 says the same.
    *empty.last_mut().unwrap() = 0;
    assert_eq!(line_by(&empty, STRINGS, CONTIGS).unwrap(), wanted);
}

/// Reading's refusals, then 17, 18 and 13; a list as long as its dictionary is enough, and a longer one is taken.
#[test]
fn refusals_in_order() {
    let mut half = record(Given { qual: 0x3F00_0000, ..GIVEN }, 0);
    let sound = record(GIVEN, 0);
    let few = Names { ends: &[4, 7, 9], ..STRINGS };
    let none = Names { text: b"20", ends: &[] };
    let all = |record: &[u8], strings, contigs, room| vcf_line(record, &FACTS, strings, contigs, &mut vec![0; room]);
    assert_eq!(all(&half, few, none, 0), refused(17));
    for (strings, contigs) in [(few, CONTIGS), (STRINGS, none), (few, none)] {
        assert_eq!(all(&sound, strings, contigs, 0), refused(18));
    }
    let more = Names { ends: &[4, 7, 9, 11, 11], ..STRINGS };
    let length = all(&sound, more, CONTIGS, ROOM).unwrap();
    assert_eq!(all(&sound, STRINGS, CONTIGS, length), Ok(length));
    for room in [0, 1, length - 1] {
        assert_eq!(all(&sound, STRINGS, CONTIGS, room), refused(13));
    }
    half[8] = 1;
    assert_eq!(all(&half, few, none, 0), Err(Refusal { number: 5, place: 8 }));
}
