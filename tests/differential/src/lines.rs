//! The VCF line of one input, asked of both libraries, with names of many sorts and in many rooms.

use sikalumdo::Names;

use crate::damage::Input;
use crate::input::{ours, plains, Lent};
use crate::random::Random;
use crate::report::{Answer, Report};

/// A list of names: one text, and where each name ends in it.
#[derive(Debug)]
struct List {
    text: Vec<u8>,
    ends: Vec<u32>,
}

/// Names that are made for most dictionaries; a larger one has as many now and then, and otherwise too few.
const FEW: u32 = 500;
/// A dictionary that is larger has too few names each time.
const MOST: u32 = 70_000;
/// A line that is no longer is asked for now and then in every room up to its length and a little more.
const SHORT: usize = 60;
/// A line from here on is asked for in few rooms, since a room of its size is filled and compared each time.
const LONG: usize = 1 << 16;

impl List {
    fn ours(&self) -> Names<'_> {
        Names { text: &self.text, ends: &self.ends }
    }

    fn plains(&self) -> plain::Names<'_> {
        plain::Names { text: &self.text, ends: &self.ends }
    }
}

/// Names for a dictionary of a size, now and then too few or more than it has.
fn list(random: &mut Random, size: u32) -> List {
    let enough = size <= FEW || (size <= MOST && random.one_in(8));
    let count = match random.below(12) {
        _ if !enough => random.below(40),
        0 => (size as usize).saturating_sub(random.within(1, 3) as usize),
        1..=3 => size as usize + random.below(4),
        _ => size as usize,
    };
    let text = text(random);
    let sort = random.below(4);
    let mut last = 0;
    let ends = (0..count).map(|_| {
        last = match sort {
            // Any place, past the text, too, so that some ends fall; then now and then any number.
            0 => random.below(text.len() + 10) as u32,
            1 if random.one_in(6) => random.pick(&[0, 3, 1 << 31, u32::MAX]),
            // One after another, until the text is all used.
            _ => last.saturating_add(random.below(6) as u32),
        };
        last
    });
    let ends = ends.collect();
    List { text, ends }
}

/// Text of letters and, in some lists, of tabs, zero bytes and others.
fn text(random: &mut Random) -> Vec<u8> {
    let length = random.pick(&[0, 10, 100, 1_500]);
    let letters = random.one_in(2);
    let mut byte = || match random.below(8) {
        0 if !letters => random.pick(&[0, 0, b'\t', b'\n', b';', 0xFF]),
        _ => random.within(0x30, 0x7A) as u8,
    };
    (0..length).map(|_| byte()).collect()
}

/// Compares the line in one room, buffers and all, and gives its length.
fn compare_line(report: &mut Report, input: &Input, lists: &[List; 2], room: usize, salt: u64) -> Answer<usize> {
    let (mut our_buf, mut plain_buf) = (Lent::new(room, salt), Lent::new(room, salt));
    let [strings, contigs] = lists;
    let names = (strings.ours(), contigs.ours());
    let ours = ours(sikalumdo::vcf_line(&input.bytes, &input.facts, names.0, names.1, our_buf.lend(room)));
    let names = (strings.plains(), contigs.plains());
    let facts = input.plain_facts();
    let plain = plains(plain::vcf_line(&input.bytes, &facts, names.0, names.1, plain_buf.lend(room)));
    report.compare(input, "vcf_line", format_args!("{lists:?} in {room}"), &ours, &plain);
    report.compare_bytes(input, format_args!("vcf_line {lists:?} in {room}"), our_buf.whole(), plain_buf.whole());
    ours
}

/// The line's length, found in rooms that get larger.
fn compare_length(report: &mut Report, input: &Input, lists: &[List; 2], random: &mut Random) -> Answer<usize> {
    let mut room = random.below(40) + (2 * input.bytes.len()).min(400);
    loop {
        match compare_line(report, input, lists, room, random.next()) {
            Err((13, _)) => room = 4 * room + 64,
            answer => return answer,
        }
    }
}

/// Compares the line with names of several sorts, each in the rooms around the one that it needs.
pub fn compare_lines(report: &mut Report, input: &Input, random: &mut Random, accepted: bool) {
    let sorts = if accepted { 2 } else { 1 };
    for _ in 0..sorts {
        let lists = [list(random, input.facts.strings), list(random, input.facts.contigs)];
        let Ok(length) = compare_length(report, input, &lists, random) else {
            compare_line(report, input, &lists, random.below(40), random.next()).ok();
            continue;
        };
        let rooms = match length {
            ..=SHORT if random.one_in(20) => (0..length + 3).collect(),
            LONG.. => vec![length - 1],
            _ => vec![random.below(length), length - 1, length, length + 1 + random.below(40)],
        };
        for room in rooms {
            compare_line(report, input, &lists, room, random.next()).ok();
        }
    }
}
