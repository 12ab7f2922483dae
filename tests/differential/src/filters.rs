//! Long FILTER lists, read and built: sound ones, and such with an offset repeated or outside the dictionary.

use sikalumdo::Facts;

use crate::damage::Input;
use crate::elements::tight_code;
use crate::random::Random;
use crate::reading::compare_record;
use crate::record::{Record, Value};
use crate::report::Report;
use crate::shape::record_of;
use crate::turns::{compare_turns, Sequence, Turn};

pub fn compare_filters(report: &mut Report, random: &mut Random) {
    let most = random.pick(&[128, 32_768, 70_000]);
    let strings = random.within(40, most) as u32;
    let facts = Facts { strings, contigs: 1, people: 0, gt: u32::MAX };
    let sound = long_list(random, strings as usize);
    for _ in 0..8 {
        let mut list = sound.clone();
        let (from, to) = (random.below(list.len()), random.below(list.len()));
        match random.below(5) {
            0 => {}
            1 => list[to] = strings + random.below(2) as u32,
            _ => list[to] = list[from],
        }
        compare_list(report, random, facts, list);
    }
}

/// Different offsets at even steps, ascending, descending or in no order.
fn long_list(random: &mut Random, strings: usize) -> Vec<u32> {
    let most = if random.one_in(20) { 3_000 } else { 300 };
    let count = random.within(16, most).min(strings as i64) as usize;
    let step = 1 + random.below(strings / count);
    let mut list: Vec<u32> = (0..count).map(|number| (number * step) as u32).collect();
    match random.below(3) {
        0 => {}
        1 => list.reverse(),
        _ => (1..count).for_each(|at| list.swap(at, random.below(at + 1))),
    }
    list
}

/// Compares reading of a record with a list as its FILTER, and building with it.
fn compare_list(report: &mut Report, random: &mut Random, facts: Facts, list: Vec<u32>) {
    let offsets = list.iter().map(|&offset| offset as i32).collect();
    let code = random.within(tight_code(&list).into(), 3) as u8;
    let filter = Value { code, len: list.len() as u32, length_code: 2, shown: list };
    let record = Record { filter, ..record_of(random, facts) };
    compare_record(report, &Input { facts, bytes: record.lay().bytes }).ok();
    let begin = Turn::Begin { facts, chrom: 0, pos: 0, rlen: 0, qual: 0 };
    let turns = [begin, Turn::Id(Vec::new()), Turn::Allele(b"A".to_vec()), Turn::Filter(offsets), Turn::End];
    let room = 16_000;
    let turns = turns.into_iter().map(|turn| (turn, room)).collect();
    compare_turns(report, &Sequence { turns, room, salt: random.next() });
}
