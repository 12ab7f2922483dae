//! What was read is built again: the values that an accepted record shows, given to both builders.

use sikalumdo::{Field, Kind, Record, Site};

use crate::damage::Input;
use crate::turns::{List, Sequence, Turn};

fn shown(elements: &[u8], code: u8) -> Vec<u32> {
    (0..).map_while(|index| sikalumdo::shown(elements, code, index)).collect()
}

fn list(elements: &[u8], code: u8) -> List {
    List::of(code, &shown(elements, code))
}

/// The turns that build what an accepted record shows, as fetching, walking and showing give it.
pub fn sequence(input: &Input, site: &Site, salt: u64) -> Sequence {
    let record = Record::read(&input.bytes, &input.facts).expect("an accepted record");
    let fetch =
        |kind: Kind, number: u32| -> Field<'_> { record.fetch(kind, number).expect("a field of an accepted record") };
    let Site { chrom, pos, rlen, qual_bits: qual, .. } = *site;
    let mut turns = vec![Turn::Begin { facts: input.facts, chrom, pos, rlen, qual }];
    turns.push(Turn::Id(fetch(Kind::ID, 0).elements.to_vec()));
    turns.extend((0..site.alleles).map(|number| Turn::Allele(fetch(Kind::ALLELE, number).elements.to_vec())));
    let filter = fetch(Kind::FILTER, 0);
    turns.push(Turn::Filter(shown(filter.elements, filter.code).into_iter().map(|bits| bits as i32).collect()));
    for pair in record.pairs().take(site.infos as usize) {
        turns.push(Turn::Info(pair.key as i32, list(pair.elements, pair.code)));
    }
    for number in 0..site.formats {
        let field = fetch(Kind::FORMAT, number);
        turns.push(Turn::Format(field.key as i32, field.len, list(field.elements, field.code)));
    }
    turns.push(Turn::End);
    // A tight record is never longer than the one it was read from.
    let room = site.length as usize;
    Sequence { turns: turns.into_iter().map(|turn| (turn, room)).collect(), room, salt }
}
