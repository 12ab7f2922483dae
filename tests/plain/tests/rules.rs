//! Cases that the vectors don't reach: document 01's marked examples, long lists, the limits of sizes and counts, and
//! the bare 00 at every descriptor.

use plain::{
    call, choose, fetch, field_of, info_start, pair_at, read, shown, tally, Builder, Call, Facts, Kind, Refusal,
};

const FACTS: Facts = Facts { strings: 4, contigs: 1, people: 2, gt: 3 };
const MISSING: i32 = i32::MIN;
const END: i32 = i32::MIN + 1;

/// The places of QUAL, of the allele and INFO counts, and of the FORMAT and people counts.
const QUAL: usize = 20;
const SITE_COUNTS: usize = 24;
const GENOTYPE_COUNTS: usize = 28;

fn refused<T>(number: u32, place: u32) -> Result<T, Refusal> {
    Err(Refusal { number, place })
}

/// Writes the four bytes of a field.
fn set(record: &mut [u8], at: usize, word: u32) {
    record[at..at + 4].copy_from_slice(&word.to_le_bytes());
}

/// Document 01's sample record, QUAL after rlen.
fn sample() -> Vec<u8> {
    let digits = "23000000070000000000000021380000010000000000E8410100020002000001071747174111001102110E11032102030481";
    (0..digits.len()).step_by(2).map(|at| u8::from_str_radix(&digits[at..at + 2], 16).unwrap()).collect()
}

/// The place of the value's descriptor in a record that `with_info` makes.
const VALUE: u32 = 38;

/// A record of one allele and one INFO field, without people; `value` is the field's descriptor and elements.
fn with_info(value: &[u8]) -> (Vec<u8>, Facts) {
    let mut record = vec![0; 32];
    set(&mut record, SITE_COUNTS, 1 << 16 | 1);
    record.extend([0x07, 0x17, b'A', 0x01, 0x11, 0x02]);
    record.extend(value);
    let l_shared = record.len() as u32 - 8;
    set(&mut record, 0, l_shared);
    (record, Facts { people: 0, ..FACTS })
}

fn read_info(value: &[u8]) -> Result<(), Refusal> {
    let (record, facts) = with_info(value);
    read(&record, &facts).map(|_| ())
}

/// The type and length that the walker finds in an accepted record of this INFO value.
fn type_and_length(value: &[u8]) -> (u8, u32) {
    read_info(value).unwrap();
    let pair = pair_at(&with_info(value).0, VALUE as usize - 2).unwrap();
    (pair.code, pair.len)
}

/// A builder after FILTER, for `people` people and two alleles.
fn filtered(buf: &mut [u8], people: u32) -> Builder {
    let mut builder = Builder::fresh();
    builder.begin(buf, Facts { people, ..FACTS }, 0, 0, 1, 0).unwrap();
    builder.id(buf, b"").unwrap();
    builder.allele(buf, b"A").unwrap();
    builder.allele(buf, b"C").unwrap();
    builder.filter(buf, &[]).unwrap();
    builder
}

/// The type code that the builder writes two integers in.
fn built_code(values: [i32; 2]) -> u8 {
    let mut buf = [0; 64];
    let mut builder = filtered(&mut buf, 0);
    builder.info_integers(&mut buf, 0, &values).unwrap();
    buf[40] & 15
}

#[test]
fn marked_examples_of_values() {
    assert_eq!(type_and_length(&[0x47, b'a', b'b', b'c', b'd']), (7, 4)); // M1
    let mut text = vec![b'a'; 30];
    text[..3].copy_from_slice(&[0xF7, 0x11, 0x1B]);
    assert_eq!(type_and_length(&text), (7, 27)); // M2
    text[2] = 0x0E;
    assert_eq!(read_info(&text), refused(7, VALUE + 1)); // M3
    text[1] = 0x21;
    assert_eq!(read_info(&text), refused(6, VALUE + 1)); // M4
    assert_eq!(type_and_length(&[0x07]), (7, 0)); // M5
    assert_eq!([[-120, 127], [-121, 0], [0, 128]].map(built_code), [1, 2, 2]); // M6
    assert_eq!([[-32760, 32767], [-32761, 0], [0, 32768]].map(built_code), [2, 3, 3]); // M7
    assert_eq!(shown(&[0x80], 1, 0), Some(MISSING as u32)); // M8
    assert_eq!(read_info(&[0x11, 0x82]), refused(9, VALUE + 1));
    assert_eq!(read_info(&[0x31, 0x05, 0x81, 0x81]), Ok(())); // M9
    assert_eq!(read_info(&[0x31, 0x05, 0x81, 0x06]), refused(9, VALUE + 3));
}

#[test]
fn marked_examples_of_genotypes() {
    assert_eq!(call(&[0x05], 1, 0), Some(Call::Allele { allele: 1, phased: true })); // M10
    for wrong in [0x06, 0xFF] {
        let mut record = sample();
        record[46] = wrong;
        assert_eq!(read(&record, &FACTS), refused(10, 46));
    }
    let counted = tally(&sample(), &FACTS).unwrap(); // M11
    assert_eq!((counted.counts[0], counted.counts[1], counted.missing, counted.without), (2, 1, 0, 0));
    let mut buf = [0; 48]; // M12
    assert_eq!(choose(&sample(), &FACTS, &[1], &mut buf), Ok(48));
    assert_eq!((buf[4], &buf[46..]), (5, &[0x04, 0x81][..]));
    let counted = tally(&buf, &Facts { people: 1, ..FACTS }).unwrap();
    assert_eq!((counted.counts[0], counted.counts[1]), (0, 1));
}

#[test]
fn elements_shown_and_called() {
    assert_eq!(shown(&[0x00, 0x80, 0x01, 0x80, 0x02, 0x80], 2, 2), Some(-32766i32 as u32));
    assert_eq!(shown(&[0x01, 0x80], 2, 0), Some(END as u32));
    assert_eq!(shown(&[0x01, 0x00, 0x80, 0x7F, 0xFF], 5, 0), Some(0x7F80_0001));
    assert_eq!(shown(&[0x01, 0x00, 0x80, 0x7F, 0xFF], 5, 1), None);
    assert_eq!(shown(&[0x80], 7, 0), Some(0x80));
    assert_eq!([0, 4, 16, 255].map(|code| shown(&[1, 2, 3, 4], code, 0)), [None; 4]);
    assert_eq!(shown(&[1, 2, 3, 4], 3, usize::MAX), None);
    assert_eq!(call(&[0x00, 0x01, 0x80, 0x81, 0xFF], 1, 0), Some(Call::Missing { phased: false }));
    assert_eq!(call(&[0x00, 0x01, 0x80, 0x81, 0xFF], 1, 1), Some(Call::Missing { phased: true }));
    assert_eq!(call(&[0x00, 0x01, 0x80, 0x81, 0xFF], 1, 2), Some(Call::Missing { phased: false }));
    assert_eq!(call(&[0x00, 0x01, 0x80, 0x81, 0xFF], 1, 3), Some(Call::End));
    assert_eq!(call(&[0x00, 0x01, 0x80, 0x81, 0xFF], 1, 4), None);
    assert_eq!(call(&[2], 7, 0), None);
}

/// A record of two alleles and one FORMAT field, the GT of `people` people, in elements of a width.
fn with_gt(codes: &[i32], people: u32, len: u8, code: u8) -> Vec<u8> {
    let width = [0, 1, 2, 4][code as usize];
    let mut record = vec![0; 32];
    set(&mut record, SITE_COUNTS, 2 << 16);
    set(&mut record, GENOTYPE_COUNTS, 1 << 24 | people);
    record.extend([0x07, 0x17, b'A', 0x17, b'C', 0x01, 0x11, 0x03, len << 4 | code]);
    // Marks and reserved values start at the least number of each width.
    let least = -1 << (8 * width - 1);
    let narrow = |&code: &i32| if code < MISSING + 8 { least + (code - MISSING) } else { code };
    record.extend(codes.iter().flat_map(|code| narrow(code).to_le_bytes()[..width].to_vec()));
    let l_indiv = record.len() as u32 - 38;
    set(&mut record, 0, 30);
    set(&mut record, 4, l_indiv);
    record
}

/// The number and index of the first fault in GT codes of two alleles, straight from document 01's words.
fn first_fault(codes: &[i32], len: usize) -> Option<(u32, usize)> {
    (0..codes.len()).find_map(|index| {
        let (code, earlier) = (codes[index], &codes[index / len * len..index]);
        let reserved = (MISSING + 2..=MISSING + 7).contains(&code);
        if code == END {
            None
        } else if reserved || earlier.contains(&END) {
            Some((9, index))
        } else if code != MISSING && !(0..=5).contains(&code) {
            Some((10, index))
        } else {
            None
        }
    })
}

/// Faults anywhere in long lists, on both sides of the borders between blocks, in reading and in building.
#[test]
fn faults_in_long_lists() {
    let people = 1100;
    let mut buf = vec![0; 1 << 16];
    for (seed, len) in (0..400).zip([1u8, 2, 3, 14].into_iter().cycle()) {
        let slots = people * usize::from(len);
        let mut codes: Vec<i32> = (0..slots as i32).map(|slot| slot % 6).collect();
        codes.iter_mut().skip(usize::from(len) - 1).step_by(3 * usize::from(len)).for_each(|code| *code = END);
        let fault = [MISSING, END, MISSING + 2, MISSING + 7, -1, 6, 5][seed % 7];
        codes[(seed * 7919) % slots] = fault;
        let want = first_fault(&codes, len.into());
        for (code, width) in [(1, 1), (2, 2), (3, 4)] {
            let got = read(&with_gt(&codes, people as u32, len, code), &Facts { people: people as u32, ..FACTS });
            let place = |index: usize| (41 + index * width) as u32;
            assert_eq!(got.err(), want.map(|(number, index)| Refusal { number, place: place(index) }));
        }
        let got = filtered(&mut buf, people as u32).format_integers(&mut buf, 3, len.into(), &codes);
        assert_eq!(got.err(), want.map(|(number, _)| Refusal { number, place: 0 }));
    }
}

/// A tally of many people at each width is what the calls say one by one.
#[test]
fn tally_of_many() {
    let (people, len) = (1000, 3);
    let vectors = [[0, 1, END], [MISSING, 5, 4], [2, END, END], [END; 3], [3, 2, MISSING], [4, 4, 4], [2, 3, 5]];
    let codes: Vec<i32> = vectors.iter().cycle().take(people).flatten().copied().collect();
    for code in 1..=3 {
        let record = with_gt(&codes, people as u32, len, code);
        let counted = tally(&record, &Facts { people: people as u32, ..FACTS }).unwrap();
        let part = &record[counted.site.gt_first as usize..];
        let calls: Vec<Call> = (0..).map_while(|index| call(part, code, index)).collect();
        assert_eq!(calls.len(), codes.len());
        let count = |wanted: &dyn Fn(&Call) -> bool| calls.iter().filter(|call| wanted(call)).count() as u64;
        assert_eq!(counted.missing, count(&|call| matches!(call, Call::Missing { .. })));
        for number in 0..64 {
            let called = count(&|call| matches!(call, Call::Allele { allele, .. } if *allele == number));
            assert_eq!(counted.counts[number as usize], called);
        }
        let without = calls.chunks(len.into()).filter(|person| person[0] == Call::End).count();
        assert_eq!(counted.without, without as u64);
    }
}

#[test]
fn long_filters() {
    let facts = Facts { strings: 3_000_000, ..FACTS };
    let mut offsets: Vec<i32> = (0..2_000_000).rev().collect();
    let mut buf = vec![0; 1 << 24];
    let mut builder = Builder::fresh();
    builder.begin(&mut buf, facts, 0, 0, 1, 0).unwrap();
    builder.id(&mut buf, b"").unwrap();
    builder.allele(&mut buf, b"A").unwrap();
    let length = builder.clone().filter(&mut buf, &offsets).unwrap();
    assert_eq!(length, 35 + 6 + 4 * 2_000_000);
    offsets[1_999_999] = 1_999_999;
    assert_eq!(builder.clone().filter(&mut buf, &offsets), refused(11, 0));
    offsets[1_999_999] = 3_000_000;
    assert_eq!(builder.filter(&mut buf, &offsets), refused(8, 0));
}

#[test]
fn greatest_record() {
    let mut buf = vec![0; 1 << 25];
    let text = vec![b'x'; 16_777_216 - 38 - 2 - 6];
    let mut builder = filtered(&mut buf, 0);
    let mut longer = text.clone();
    longer.push(b'x');
    assert_eq!(builder.info_text(&mut buf, 0, &longer), refused(2, 0));
    assert_eq!(builder.info_text(&mut buf[..16_777_215], 0, &text), refused(13, 0));
    assert_eq!(builder.info_text(&mut buf, 0, &text), Ok(16_777_216));
    assert_eq!(builder.info_text(&mut buf, 0, b""), refused(2, 0));
    builder.end(&mut buf).unwrap();
    let facts = Facts { people: 0, ..FACTS };
    assert_eq!(read(&buf, &facts).map(|site| site.length), Ok(16_777_216));
    assert_eq!(read(&buf[..16_777_215], &facts), refused(1, 0));
    buf[4] = 1;
    assert_eq!(read(&buf, &facts), refused(2, 0));
}

/// 16,777,215 people with 2^30 elements of four bytes each pass 2^32 many times, and are 0 in 32 bits.
#[test]
fn products_in_64_bits() {
    let mut record = with_gt(&[], 16_777_215, 15, 3);
    record.extend([0x13, 0, 0, 0, 0x40]);
    record[4] += 5;
    let facts = Facts { people: 16_777_215, ..FACTS };
    assert_eq!(read(&record, &facts), refused(3, record.len() as u32));
}

#[test]
fn greatest_counts() {
    let mut buf = vec![0; 1 << 20];
    let facts = Facts { strings: 1000, contigs: 1, people: 1, gt: 3 };
    let mut builder = Builder::fresh();
    builder.begin(&mut buf, facts, 0, 0, 1, 0).unwrap();
    builder.id(&mut buf, b"").unwrap();
    (0..65_535).for_each(|_| assert!(builder.allele(&mut buf, b"A").is_ok()));
    assert_eq!(builder.allele(&mut buf, b""), refused(5, 0));
    builder.filter(&mut buf, &[]).unwrap();
    (0..65_535).for_each(|_| assert!(builder.info_integers(&mut buf, 0, &[]).is_ok()));
    assert_eq!(builder.info_floats(&mut buf, -1, &[]), refused(5, 0));
    (0..255).for_each(|key| assert!(builder.format_integers(&mut buf, key, 1, &[0]).is_ok()));
    assert_eq!(builder.format_integers(&mut buf, 0, 1, &[0]), refused(5, 0));
    let length = builder.end(&mut buf).unwrap();
    let site = read(&buf, &facts).unwrap();
    assert_eq!((site.length, site.alleles, site.infos, site.formats), (length, 65_535, 65_535, 255));
    assert_eq!(tally(&buf, &facts), refused(15, 0));
    let people = Facts { people: 16_777_216, ..facts };
    assert_eq!(Builder::fresh().begin(&mut buf, people, 0, 0, 1, 0), refused(5, 0));
}

#[test]
fn walking_anywhere() {
    for at in [0, 49, 50, usize::MAX] {
        assert_eq!(pair_at(&sample(), at), None);
    }
    let start = info_start(&sample(), &FACTS).unwrap() as usize;
    let pair = pair_at(&sample(), start).unwrap();
    assert_eq!((pair.key, pair.code, pair.len, pair.first, pair.stop), (2, 1, 1, 42, 43));
    assert_eq!(pair_at(&sample(), 43), None);
    // FILTER's bytes look like a pair too, but not where the site block isn't all lent.
    assert_eq!(pair_at(&sample(), start - 2).map(|pair| pair.stop), Some(41));
    assert_eq!(pair_at(&sample()[..42], start - 2), None);
}

/// Each field that breaks its rule is refused at its own place, whatever stands behind it.
#[test]
fn fixed_fields_in_byte_order() {
    let mut record = sample();
    let broken = [(GENOTYPE_COUNTS, 3), (SITE_COUNTS, 1), (QUAL, 0x7F80_0002), (16, 1 << 31), (12, 1 << 31), (8, 1)];
    for (place, word) in broken {
        set(&mut record, place, word);
        assert_eq!(read(&record, &FACTS), refused(5, place as u32));
    }
    let mut record = sample();
    set(&mut record, GENOTYPE_COUNTS, 1 << 24);
    assert_eq!(read(&record, &Facts { people: 0, ..FACTS }), refused(5, GENOTYPE_COUNTS as u32));
}

/// End writes four fields, the last of them the FORMAT and people counts, and asks for no more room.
#[test]
fn room_for_end() {
    let mut buf = [0; 64];
    let mut builder = filtered(&mut buf, 2);
    assert_eq!(builder.end(&mut buf[..GENOTYPE_COUNTS + 3]), refused(13, 0));
    assert_eq!(builder.end(&mut buf[..GENOTYPE_COUNTS + 4]), Ok(38));
    assert_eq!(read(&buf, &FACTS).map(|site| site.length), Ok(38));
}

/// The places of FILTER's, the INFO value's, the FORMAT value's and GT's descriptors in the record that `bare` makes.
const VALUES: [usize; 4] = [35, 38, 41, 44];
/// The places of the descriptors of the ID, the allele and the three keys.
const OTHERS: [usize; 5] = [32, 33, 36, 39, 42];

/// A record of one allele, one INFO field and two FORMAT fields, GT the second, with a bare 00 for each value.
fn bare() -> Vec<u8> {
    let mut record = vec![0; 32];
    record.extend([0x07, 0x17, b'A', 0x00, 0x11, 0x02, 0x00]);
    record.extend([0x11, 0x01, 0x00, 0x11, 0x03, 0x00]);
    for (at, word) in [(0, 31), (4, 6), (SITE_COUNTS, 1 << 16 | 1), (GENOTYPE_COUNTS, 2 << 24 | 2)] {
        set(&mut record, at, word);
    }
    record
}

/// A bare 00 is told with type 0, length 0 and the place just after it.
#[test]
fn bare_values_read_and_fetched() {
    let record = bare();
    let gt = |facts: &Facts| read(&record, facts).map(|site| (site.length, site.gt_type, site.gt_len, site.gt_first));
    assert_eq!(gt(&FACTS), Ok((45, 0, 0, 45)));
    assert_eq!(gt(&Facts { gt: 0, ..FACTS }), Ok((45, 0, 0, 0)));
    let told = |kind, number| {
        let field = fetch(&record, &FACTS, kind, number).unwrap();
        (field.key, field.code, field.len, field.first, field.stop)
    };
    assert_eq!(told(Kind::Filter, 0), (0, 0, 0, 36, 36));
    assert_eq!(told(Kind::Info, 0), (2, 0, 0, 39, 39));
    assert_eq!(told(Kind::Format, 0), (1, 0, 0, 42, 42));
    assert_eq!(told(Kind::Format, 1), (3, 0, 0, 45, 45));
    let start = info_start(&record, &FACTS).unwrap() as usize;
    let pair = pair_at(&record, start).unwrap();
    assert_eq!((pair.key, pair.code, pair.len, pair.first, pair.stop), (2, 0, 0, 39, 39));
    assert_eq!((start, pair_at(&record, 39), shown(&record[39..39], 0, 0)), (36, None, None));
}

/// With a bare 00 for GT nobody has a genotype, and a choice keeps key and descriptor.
#[test]
fn bare_values_tallied_and_chosen() {
    let mut record = bare();
    let counted = tally(&record, &FACTS).unwrap();
    assert_eq!((counted.without, counted.missing, counted.counts), (2, 0, [0; 64]));
    let mut buf = [0x5A; 46];
    assert_eq!(choose(&record, &FACTS, &[1], &mut buf), Ok(45));
    record[GENOTYPE_COUNTS] = 1;
    assert_eq!((&buf[..45], buf[45]), (&record[..], 0x5A));
    assert_eq!(choose(&bare(), &FACTS, &[], &mut buf), Ok(39));
}

/// 00 stands for no ID, allele, key or true length, and type 0 has no other length anywhere.
#[test]
fn type_0_refused() {
    let with = |place: usize, descriptor: u8| {
        let mut record = bare();
        record[place] = descriptor;
        read(&record, &FACTS)
    };
    for place in OTHERS {
        assert_eq!(with(place, 0x00), refused(6, place as u32));
    }
    for place in VALUES.into_iter().chain(OTHERS) {
        for length in 1..=15 {
            assert_eq!(with(place, length << 4), refused(6, place as u32));
        }
    }
    for length in 0..=15 {
        assert_eq!(read_info(&[0xF1, length << 4, 0x0F, 0x00]), refused(6, VALUE + 1));
    }
}

/// The builder writes no bare 00: a value of no elements is 01, 05 or 07.
#[test]
fn empty_values_built() {
    let mut buf = [0; 64];
    let mut builder = Builder::fresh();
    builder.begin(&mut buf, FACTS, 0, 0, 0, 0).unwrap();
    builder.id(&mut buf, b"").unwrap();
    builder.allele(&mut buf, b"A").unwrap();
    builder.filter(&mut buf, &[]).unwrap();
    let after_filter = builder.clone();
    builder.info_integers(&mut buf, 2, &[]).unwrap();
    builder.format_integers(&mut buf, 1, 0, &[]).unwrap();
    builder.format_integers(&mut buf, 3, 0, &[]).unwrap();
    assert_eq!(builder.end(&mut buf), Ok(45));
    let mut record = bare();
    VALUES.into_iter().for_each(|place| record[place] = 0x01);
    assert_eq!(buf[..45], record);
    after_filter.clone().info_floats(&mut buf, 2, &[]).unwrap();
    assert_eq!(buf[38], 0x05);
    after_filter.clone().info_text(&mut buf, 2, b"").unwrap();
    assert_eq!(buf[38], 0x07);
}

const KINDS: [Kind; 5] = [Kind::Id, Kind::Allele, Kind::Filter, Kind::Info, Kind::Format];

#[test]
fn fields_by_what_reading_told() {
    let told = [50, 43, 0, 14_369, 1, 0x41E8_0000, 2, 1, 1, 2, 1, 2, 46, 0xA5];
    for (kind, count) in KINDS.into_iter().zip([1, 2, 1, 1, 1]) {
        for number in 0..count + 2 {
            let wanted = fetch(&sample(), &FACTS, kind, number);
            assert_eq!((field_of(&sample(), &told, kind, number), wanted.is_ok()), (wanted, number < count));
        }
        assert_eq!(field_of(&sample(), &told[..12], kind, 0), refused(16, 0));
    }
}

/// Each number of a site in turn, and all of them, where it leads: 16, or a field that is there.
#[test]
fn fields_by_other_numbers() {
    let told = [50, 43, 0, 14_369, 1, 0x41E8_0000, 2, 1, 1, 2, 1, 2, 46];
    for number in [0, 1, 32, 45, 51, 256, 65_536, u32::MAX.into(), 1 << 32, u64::MAX] {
        for index in 0..=told.len() {
            let mut other = told;
            other.iter_mut().enumerate().filter(|(at, _)| *at == index || index == 13).for_each(|(_, n)| *n = number);
            for (kind, n) in KINDS.into_iter().zip(0..3).chain([(Kind::Format, 0), (Kind::Info, 0), (Kind::Id, 0)]) {
                match field_of(&sample(), &other, kind, n) {
                    Ok(field) => assert!(field.first <= field.stop && field.stop <= 50),
                    refusal => assert_eq!(refusal, refused(16, 0)),
                }
            }
        }
    }
    // 257 FORMAT fields are one in 8 bits, and of one person.
    let mut one = told;
    (one[8], one[9]) = (257, 1);
    assert_eq!(field_of(&sample(), &one, Kind::Format, 0).map(|field| (field.first, field.stop)), Ok((46, 48)));
}

/// The most people with the longest vectors of four bytes pass any block.
#[test]
fn more_than_64_bits_of_elements() {
    let mut record = sample();
    record.truncate(45);
    record.extend([0xF3, 0x13, 0xFF, 0xFF, 0xFF, 0x7F, 0x00, 0x00]);
    let told = [53, 43, 0, 0, 0, 0, 2, 1, 1, u32::MAX.into(), 0, 0, 0];
    assert_eq!(field_of(&record, &told, Kind::Format, 0), refused(16, 0));
}
