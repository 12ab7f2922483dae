//! Turns of building, and sequences of them taken by both builders over buffers of their own.

use std::fmt::{self, Display};

use sikalumdo::Facts;

use crate::damage::Input;
use crate::input::{ours, plain_facts, plains, Lent};
use crate::reading::{compare_read, compare_tally};
use crate::report::{Answer, Report};

/// A list of values as a turn takes it.
#[derive(Debug, Clone)]
pub enum List {
    Integers(Vec<i32>),
    Floats(Vec<u32>),
    Text(Vec<u8>),
}

impl List {
    /// The list that a type's shown elements make.
    pub fn of(code: u8, shown: &[u32]) -> List {
        match code {
            5 => List::Floats(shown.to_vec()),
            7 => List::Text(shown.iter().map(|&bits| bits as u8).collect()),
            _ => List::Integers(shown.iter().map(|&bits| bits as i32).collect()),
        }
    }

    pub fn len(&self) -> usize {
        match self {
            List::Integers(list) => list.len(),
            List::Floats(list) => list.len(),
            List::Text(list) => list.len(),
        }
    }
}

#[derive(Debug, Clone)]
pub enum Turn {
    Begin { facts: Facts, chrom: i32, pos: i32, rlen: i32, qual: u32 },
    Id(Vec<u8>),
    Allele(Vec<u8>),
    Filter(Vec<i32>),
    Info(i32, List),
    Format(i32, u32, List),
    End,
}

/// A turn's name, by which its calls are counted.
fn name(turn: &Turn) -> &'static str {
    match turn {
        Turn::Begin { .. } => "begin",
        Turn::Id(_) => "id",
        Turn::Allele(_) => "allele",
        Turn::Filter(_) => "filter",
        Turn::Info(_, List::Integers(_)) => "info_integers",
        Turn::Info(_, List::Floats(_)) => "info_floats",
        Turn::Info(_, List::Text(_)) => "info_text",
        Turn::Format(_, _, List::Integers(_)) => "format_integers",
        Turn::Format(_, _, List::Floats(_)) => "format_floats",
        Turn::Format(_, _, List::Text(_)) => "format_text",
        Turn::End => "end",
    }
}

/// Declares a function that takes a turn with one library's builder; the two differ in how begin takes the facts.
macro_rules! taker {
    ($name:ident, $builder:ty, $opened:ident, $facts:expr) => {
        fn $name(turn: &Turn, builder: &mut $builder, buf: &mut [u8]) -> Answer<u32> {
            $opened(match turn {
                Turn::Begin { facts, chrom, pos, rlen, qual } => {
                    builder.begin(buf, $facts(facts), *chrom, *pos, *rlen, *qual)
                }
                Turn::Id(text) => builder.id(buf, text),
                Turn::Allele(text) => builder.allele(buf, text),
                Turn::Filter(offsets) => builder.filter(buf, offsets),
                Turn::Info(key, List::Integers(list)) => builder.info_integers(buf, *key, list),
                Turn::Info(key, List::Floats(list)) => builder.info_floats(buf, *key, list),
                Turn::Info(key, List::Text(list)) => builder.info_text(buf, *key, list),
                Turn::Format(key, len, List::Integers(list)) => builder.format_integers(buf, *key, *len, list),
                Turn::Format(key, len, List::Floats(list)) => builder.format_floats(buf, *key, *len, list),
                Turn::Format(key, len, List::Text(list)) => builder.format_text(buf, *key, *len, list),
                Turn::End => builder.end(buf),
            })
        }
    };
}

taker!(take_ours, sikalumdo::Builder, ours, std::convert::identity);
taker!(take_plain, plain::Builder, plains, plain_facts);

/// Turns in order, each with the bytes that the buffer has for it.
#[derive(Default)]
pub struct Sequence {
    pub turns: Vec<(Turn, usize)>,
    pub room: usize,
    pub salt: u64,
}

impl Display for Sequence {
    fn fmt(&self, form: &mut fmt::Formatter<'_>) -> fmt::Result {
        write!(form, "turns over {} bytes from {:X}:", self.room, self.salt)?;
        self.turns.iter().try_for_each(|(turn, room)| write!(form, "\n  in {room}: {turn:X?}"))
    }
}

/// Turns from which on buffers are not compared after each.
const MANY: usize = 1_000;

/// Takes every turn with both builders, compares the answers and the buffers, and reads back what was built. Gives
/// the record if all turns were taken and the last was end.
pub fn compare_turns(report: &mut Report, sequence: &Sequence) -> Option<Vec<u8>> {
    report.count_build();
    let (mut our_buf, mut plain_buf) =
        (Lent::new(sequence.room, sequence.salt), Lent::new(sequence.room, sequence.salt));
    let (mut our_builder, mut plain_builder) = (sikalumdo::Builder::fresh(), plain::Builder::fresh());
    let (mut facts, mut built, mut refused) = (None, None, false);
    for (number, (turn, room)) in sequence.turns.iter().enumerate() {
        let before = our_builder.clone();
        let ours = take_ours(turn, &mut our_builder, our_buf.lend(*room));
        let plain = take_plain(turn, &mut plain_builder, plain_buf.lend(*room));
        report.compare(sequence, name(turn), format_args!("turn {number}"), &ours, &plain);
        let kept = ours.is_ok() || before == our_builder;
        report.require(sequence, kept, format_args!("turn {number} is refused and changes the state"));
        if sequence.turns.len() < MANY || ours.is_err() || number + 1 == sequence.turns.len() {
            report.compare_bytes(sequence, format_args!("turn {number}"), our_buf.whole(), plain_buf.whole());
        }
        match (turn, ours) {
            (Turn::Begin { facts: begun, .. }, Ok(_)) => facts = Some(*begun),
            (Turn::End, Ok(length)) => built = Some(length as usize),
            (_, Err(_)) => refused = true,
            _ => {}
        }
    }
    let bytes = our_buf.bytes()[..built?].to_vec();
    let record = Input { facts: facts?, bytes };
    compare_built(report, sequence, &record);
    (!refused).then_some(record.bytes)
}

/// What was built is read by both alike, and accepted.
fn compare_built(report: &mut Report, sequence: &Sequence, record: &Input) {
    let answer = compare_read(report, record);
    report.require(sequence, answer.is_ok(), format_args!("what was built isn't read: {answer:?}"));
    compare_tally(report, record);
}
