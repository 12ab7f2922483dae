//! Times reading of the records that cost most among those of 16,777,216 bytes, and the building of the longest FILTER. Prints seconds.

use std::time::Instant;

use sikalumdo::{read, Builder, Facts, Site};

const MOST: usize = 16_777_216;
const FACTS: Facts = Facts { strings: 1 << 31, contigs: 1, people: 0, gt: 1 };

/// A record from its blocks: lengths, fixed fields and counts, then the bytes of ID, alleles, FILTER and INFO, then FORMAT.
fn record(alleles: u32, infos: u32, formats: u32, people: u32, site: &[u8], genotypes: &[u8]) -> Vec<u8> {
    let lengths = [24 + site.len() as u32, genotypes.len() as u32];
    let fields = [0, 0, 1, 0x7F80_0001, alleles << 16 | infos, formats << 24 | people];
    let head = lengths.iter().chain(&fields).flat_map(|word| word.to_le_bytes());
    head.chain(site.iter().copied()).chain(genotypes.iter().copied()).collect()
}

/// A descriptor of a type and a length, written with a true length of four bytes.
fn described(code: u8, len: u32) -> Vec<u8> {
    let mut bytes = vec![0xF0 + code, 0x13];
    bytes.extend(len.to_le_bytes());
    bytes
}

/// As many different offsets below 2^31 as one likes, spread over all of them and in no order.
fn offset(index: u32) -> u32 {
    index.wrapping_mul(0x9E37_79B1) & 0x7FFF_FFFF
}

fn filters() -> (Vec<u8>, Vec<i32>) {
    let count = (MOST - 64) as u32 / 4;
    let mut site = vec![0x07, 0x17, b'A'];
    site.extend(described(3, count));
    site.extend((0..count).flat_map(|index| offset(index).to_le_bytes()));
    (record(1, 0, 0, 0, &site, &[]), (0..count).map(|index| offset(index) as i32).collect())
}

fn alleles() -> Vec<u8> {
    let mut site = vec![0x07];
    for _ in 0..65_535 {
        site.extend(described(7, 248));
        site.extend([b'A'; 248]);
    }
    site.push(0x01);
    record(65_535, 0, 0, 0, &site, &[])
}

fn infos() -> Vec<u8> {
    let mut site = vec![0x07, 0x17, b'A', 0x01];
    for key in 0..65_535u16 {
        site.push(0x12);
        site.extend((key % 0x7FFF).to_le_bytes());
        site.extend(described(1, 245));
        site.extend([5; 245]);
    }
    record(1, 65_535, 0, 0, &site, &[])
}

/// FORMAT fields of one-byte elements, two for each person, the second an end of vector or not.
fn formats(people: u32, second: u8) -> Vec<u8> {
    let mut genotypes = vec![];
    for key in 0..255u16 {
        genotypes.push(0x12);
        genotypes.extend(key.to_le_bytes());
        genotypes.push(0x21);
        genotypes.extend((0..people).flat_map(|_| [2, second]));
    }
    record(1, 0, 255, people, &[0x07, 0x17, b'A', 0x01], &genotypes)
}

fn timed<T>(name: &str, call: impl FnOnce() -> T) -> T {
    let start = Instant::now();
    let answer = call();
    println!("{name:<66} {:8.3} s", start.elapsed().as_secs_f64());
    answer
}

fn reading(name: &str, record: &[u8], people: u32) {
    assert!(record.len() <= MOST);
    let site: Site = timed(name, || read(record, &Facts { people, ..FACTS })).expect("an accepted record");
    assert_eq!(site.length as usize, record.len());
}

fn main() {
    let (filter, offsets) = filters();
    reading("read: FILTER of 4,194,288 offsets spread over all of 2^31", &filter, 0);
    reading("read: 65,535 alleles", &alleles(), 0);
    reading("read: 65,535 INFO pairs", &infos(), 0);
    let people = (MOST as u32 - 2_048) / 255 / 2;
    reading("read: 255 FORMAT fields", &formats(people, 2), people);
    reading("read: 255 FORMAT fields, every second element an end of vector", &formats(people, 0x81), people);
    let (mut builder, mut buf) = (Builder::fresh(), vec![0; MOST]);
    builder.begin(&mut buf, &FACTS, 0, 0, 1, 0x7F80_0001).expect("begin");
    builder.id(&mut buf, b"").expect("ID");
    builder.allele(&mut buf, b"A").expect("an allele");
    timed("build: that FILTER", || builder.filter(&mut buf, &offsets)).expect("FILTER");
}
