//! Sequences of turns made at random: sound ones, with wrong turns before sound ones, out of order, and in too little
//! room; and sequences that come to the most of a count or of a record's bytes.

use sikalumdo::Facts;

use crate::elements::{end_of, vector, CODES, FLOAT_END, MISSING};
use crate::random::Random;
use crate::shape::{facts, fixed_fields, offset, offsets, people_vectors, site_length};
use crate::turns::{List, Sequence, Turn};

/// What a sequence of turns is made for.
struct Basis {
    facts: Facts,
    alleles: usize,
}

pub fn sequence(random: &mut Random) -> Sequence {
    let mut facts = facts(random);
    if facts.people > 300 && !random.one_in(4) {
        facts.people = 3;
    }
    let basis = Basis { facts, alleles: random.within(1, 4) as usize };
    let mut turns = Vec::new();
    for turn in sound_turns(random, &basis) {
        while random.one_in(3) {
            turns.push(wrong_turn(random, &basis, &turn));
        }
        turns.push(turn);
        if random.one_in(12) {
            let again = turns[random.below(turns.len())].clone();
            turns.push(again);
        }
    }
    if random.one_in(10) {
        let (from, to) = (random.below(turns.len()), random.below(turns.len()));
        turns.swap(from, to);
    }
    if random.one_in(10) {
        turns.remove(random.below(turns.len()));
    }
    with_rooms(random, turns)
}

/// Lends each turn the whole buffer, which is long enough as a rule, or now and then less of it.
fn with_rooms(random: &mut Random, turns: Vec<Turn>) -> Sequence {
    let enough = 32 + turns.iter().map(most_bytes).sum::<usize>();
    let room = if random.one_in(3) { random.below(enough) } else { enough };
    let some_less = random.one_in(5);
    let lent = |random: &mut Random| if some_less && random.one_in(4) { random.below(room + 1) } else { room };
    let turns = turns.into_iter().map(|turn| (turn, lent(random))).collect();
    Sequence { turns, room, salt: random.next() }
}

/// At least as many bytes as a turn appends.
fn most_bytes(turn: &Turn) -> usize {
    16 + match turn {
        Turn::Begin { .. } | Turn::End => 0,
        Turn::Id(text) | Turn::Allele(text) => text.len(),
        Turn::Filter(offsets) => 4 * offsets.len(),
        Turn::Info(_, List::Text(text)) | Turn::Format(_, _, List::Text(text)) => text.len(),
        Turn::Info(_, list) | Turn::Format(_, _, list) => 4 * list.len(),
    }
}

fn sound_turns(random: &mut Random, basis: &Basis) -> Vec<Turn> {
    let mut turns = vec![begin(random, &basis.facts), id(random)];
    turns.extend((0..basis.alleles).map(|_| allele(random)));
    turns.push(filter(random, &basis.facts));
    turns.extend((0..random.below(6)).map(|_| info(random, &basis.facts)));
    if basis.facts.people > 0 {
        let many = basis.facts.people < 10 && basis.facts.strings > 300 && random.one_in(20);
        if many {
            // A repeat is refused, and leaves the keys as they were for the next turn.
            let repeats = random.one_in(2);
            for key in 0..258 {
                let again = repeats && key > 0 && random.one_in(10);
                let key = if again { random.below(key) } else { key };
                turns.push(format_of(random, basis, key as u32));
            }
        } else {
            turns.extend((0..random.below(5)).map(|_| format(random, basis)));
        }
    }
    turns.push(Turn::End);
    turns
}

fn begin(random: &mut Random, facts: &Facts) -> Turn {
    let (chrom, pos, rlen, qual) = fixed_fields(random, facts);
    Turn::Begin { facts: *facts, chrom, pos, rlen, qual }
}

fn text(shown: Vec<u32>) -> Vec<u8> {
    shown.into_iter().map(|bits| bits as u8).collect()
}

fn id(random: &mut Random) -> Turn {
    let len = site_length(random) as usize;
    Turn::Id(text(vector(random, 7, len)))
}

fn allele(random: &mut Random) -> Turn {
    let len = site_length(random).max(1);
    Turn::Allele((0..len).map(|_| random.within(0x21, 0x7E) as u8).collect())
}

fn filter(random: &mut Random, facts: &Facts) -> Turn {
    Turn::Filter(offsets(random, facts.strings).into_iter().map(|offset| offset as i32).collect())
}

fn info(random: &mut Random, facts: &Facts) -> Turn {
    let (code, len) = (random.pick(&CODES), site_length(random) as usize);
    let list = List::of(code, &vector(random, code, len));
    Turn::Info(offset(random, facts.strings) as i32, list)
}

/// A FORMAT field. Keys may come twice, since small ones are picked often, and then the second is refused.
fn format(random: &mut Random, basis: &Basis) -> Turn {
    let key = if random.one_in(3) { basis.facts.gt } else { offset(random, basis.facts.strings) };
    format_of(random, basis, key)
}

fn format_of(random: &mut Random, basis: &Basis, key: u32) -> Turn {
    let facts = &basis.facts;
    let is_gt = key == facts.gt;
    let code = if is_gt { random.pick(&[1, 2, 3]) } else { random.pick(&CODES) };
    let len = match random.below(12) {
        0 if facts.people < 60 => random.within(13, 40),
        1 => 0,
        _ => random.within(1, 3),
    } as u32;
    let shown = people_vectors(random, facts.people, code, len, is_gt.then_some(basis.alleles));
    Turn::Format(key as i32, len, List::of(code, &shown))
}

/// A turn like another one with something wrong in it, or one of another sort.
fn wrong_turn(random: &mut Random, basis: &Basis, turn: &Turn) -> Turn {
    let mut wrong = turn.clone();
    match &mut wrong {
        Turn::Begin { facts, chrom, pos, rlen, qual } => match random.below(5) {
            0 => *chrom = random.pick(&[-1, i32::MIN, facts.contigs.min(1 << 30) as i32]),
            1 => *pos = random.pick(&[-2, i32::MIN, i32::MAX]),
            2 => *rlen = random.pick(&[-1, i32::MIN]),
            3 => *qual = FLOAT_END + random.below(7) as u32,
            _ => facts.people = random.pick(&[1 << 24, u32::MAX, (1 << 24) + 1]),
        },
        Turn::Id(text) => text.extend([0, b'x']),
        Turn::Allele(text) => match random.below(3) {
            0 => text.clear(),
            _ => text.push(random.pick(&[0, 0x20, 0x7F, 0x80, 0xFF])),
        },
        Turn::Filter(offsets) => wrong_filter(random, basis, offsets),
        Turn::Info(key, list) => match random.below(3) {
            0 => *key = wrong_key(random, basis),
            _ => wrong_list(random, list),
        },
        Turn::Format(..) => wrong_format(random, basis, &mut wrong),
        Turn::End => wrong = any_turn(random, basis),
    }
    if random.one_in(5) {
        any_turn(random, basis)
    } else {
        wrong
    }
}

fn any_turn(random: &mut Random, basis: &Basis) -> Turn {
    match random.below(7) {
        0 => begin(random, &basis.facts),
        1 => id(random),
        2 => allele(random),
        3 => filter(random, &basis.facts),
        4 => info(random, &basis.facts),
        5 => format(random, basis),
        _ => Turn::End,
    }
}

fn wrong_key(random: &mut Random, basis: &Basis) -> i32 {
    random.pick(&[basis.facts.strings as i32, -1, i32::MIN, i32::MIN + 1, i32::MIN + 2, i32::MAX])
}

fn wrong_filter(random: &mut Random, basis: &Basis, offsets: &mut Vec<i32>) {
    let at = random.below(offsets.len() + 1);
    match offsets.get(at).copied() {
        Some(offset) if random.one_in(2) => offsets.push(offset),
        _ => offsets.insert(at, wrong_key(random, basis)),
    }
}

/// Puts a reserved pattern, a mark or an end of vector among the elements.
fn wrong_list(random: &mut Random, list: &mut List) {
    let at = random.below(list.len() + 1);
    match list {
        List::Integers(list) => list.insert(at, (MISSING as i32) + random.below(9) as i32),
        List::Floats(list) => list.insert(at, FLOAT_END - 2 + random.below(9) as u32),
        List::Text(list) => list.insert(at, end_of(7) as u8),
    }
}

fn wrong_format(random: &mut Random, basis: &Basis, turn: &mut Turn) {
    let Turn::Format(key, len, list) = turn else { return };
    match random.below(7) {
        0 => *key = wrong_key(random, basis),
        1 => *len = len.wrapping_add(random.pick(&[1, u32::MAX, 1 << 31, 1 << 30])),
        2 => *list = List::of(random.pick(&[5, 7]), &[0].repeat(list.len())),
        3 => wrong_list(random, list),
        4 => *key = basis.facts.gt as i32,
        _ => wrong_element(random, basis, list),
    }
}

/// Writes over an element, so that the list keeps its length: a pattern as above, or a code that no GT has.
fn wrong_element(random: &mut Random, basis: &Basis, list: &mut List) {
    if list.len() == 0 {
        return;
    }
    let at = random.below(list.len());
    let code = 2 * basis.alleles as i32 + random.below(3) as i32;
    let near = random.below(9) as u32;
    match list {
        List::Integers(list) => list[at] = random.pick(&[(MISSING + near) as i32, code, -1, i32::MAX]),
        List::Floats(list) => list[at] = FLOAT_END - 2 + near,
        List::Text(list) => list[at] = 0,
    }
}

/// A sequence that comes to a limit: a record's bytes, alleles, or INFO fields.
pub fn sequence_to_limit(random: &mut Random) -> Sequence {
    let facts = Facts { strings: 300, contigs: 1, people: 7, gt: 1 };
    let mut turns = vec![begin(random, &facts), Turn::Id(Vec::new()), Turn::Allele(b"A".to_vec())];
    match random.below(3) {
        0 => {
            turns.extend(vec![Turn::Allele(b"T".to_vec()); 65_536]);
            turns.push(Turn::Filter(vec![0]));
            turns.extend([131_072, 131_071].map(|code| Turn::Format(1, 1, List::Integers(vec![code; 7]))));
        }
        1 => {
            turns.push(Turn::Filter(Vec::new()));
            turns.extend(vec![Turn::Info(200, List::Integers(Vec::new())); 65_537]);
            turns.push(Turn::Format(1, 0, List::Integers(Vec::new())));
        }
        _ => turns.extend(to_most_bytes(random)),
    }
    turns.push(Turn::End);
    with_rooms_for_most(random, turns)
}

/// INFO text that leaves as many bytes as a last FORMAT field wants, 38, or some more or fewer.
fn to_most_bytes(random: &mut Random) -> Vec<Turn> {
    let left = 36 + random.below(4);
    // Before the text stand 32 bytes, ID, an allele, FILTER, and eight of key, descriptor and true length.
    let text = vec![b'n'; (1 << 24) - 32 - 4 - 8 - left];
    let last = Turn::Format(2, 5, List::Text(vec![b'y'; 35]));
    let longer = List::Text(vec![b'n'; (1 << 24) + random.below(2) - 36 - 8]);
    let infos = if random.one_in(2) { vec![longer, List::Text(text)] } else { vec![List::Text(text)] };
    let mut turns = vec![Turn::Filter(Vec::new())];
    turns.extend(infos.into_iter().map(|list| Turn::Info(0, list)));
    turns.extend([last.clone(), last]);
    turns
}

/// Lends the whole buffer, or now and then too little of it for a turn that comes to the most bytes.
fn with_rooms_for_most(random: &mut Random, turns: Vec<Turn>) -> Sequence {
    let room = (turns.iter().map(most_bytes).sum::<usize>() + 32).min((1 << 24) + 40);
    let little = random.one_in(2);
    let lent = |turn: &Turn| if little && most_bytes(turn) > 1 << 23 { 100 } else { room };
    let turns: Vec<(Turn, usize)> = turns.into_iter().map(|turn| (turn.clone(), lent(&turn))).collect();
    Sequence { turns, room, salt: random.next() }
}
