//! Choosing people from one input, asked of both libraries, with many choices and rooms.

use crate::damage::Input;
use crate::input::{ours, plains, Lent};
use crate::random::Random;
use crate::report::Report;

/// Compares one choice in one room, buffers and all, and gives the chosen length.
fn compare_choice(report: &mut Report, input: &Input, choice: &[u32], room: usize, salt: u64) -> Option<usize> {
    let (mut our_buf, mut plain_buf) = (Lent::new(room, salt), Lent::new(room, salt));
    let ours = ours(sikalumdo::choose(&input.bytes, &input.facts, choice, our_buf.lend(room)));
    let ours = ours.map(|length| length as u32);
    let plain = plains(plain::choose(&input.bytes, &input.plain_facts(), choice, plain_buf.lend(room)));
    report.compare(input, "choose", format_args!("{choice:?} in {room}"), &ours, &plain);
    report.compare_bytes(input, format_args!("choose {choice:?} in {room}"), our_buf.whole(), plain_buf.whole());
    ours.ok().map(|length| length as usize)
}

/// Compares choices of many sorts, each in rooms around the one it needs. What is refused in any room gets one room
/// more, a short one.
pub fn compare_choices(report: &mut Report, input: &Input, random: &mut Random, accepted: bool) {
    let sorts = if accepted { 8 } else { 2 };
    for _ in 0..sorts {
        let choice = choice(random, input.facts.people.min(20_000));
        let roomy = input.bytes.len() + random.below(40);
        match compare_choice(report, input, &choice, roomy, random.next()) {
            Some(length) => {
                for room in [length, length - 1, random.below(length)] {
                    compare_choice(report, input, &choice, room, random.next());
                }
                compare_chosen(report, input, &choice);
            }
            None => {
                compare_choice(report, input, &choice, random.below(40), random.next());
            }
        }
    }
}

/// Reads a chosen record with its own count of people: both read it alike, and both accept it.
fn compare_chosen(report: &mut Report, input: &Input, choice: &[u32]) {
    let mut bytes = vec![0; input.bytes.len()];
    let chosen = sikalumdo::choose(&input.bytes, &input.facts, choice, &mut bytes).map_err(|_| ());
    let facts = sikalumdo::Facts { people: choice.len() as u32, ..input.facts };
    bytes.truncate(chosen.unwrap_or(0));
    let release = Input { facts, bytes };
    let answer = crate::reading::compare_read(report, &release);
    report.require(input, answer.is_ok(), format_args!("the choice {choice:?} isn't read: {answer:?}"));
    crate::reading::compare_tally(report, &release);
}

/// A choice: none, all, some ascending, a few gone; or one that is not ascending, repeats or is out of range.
fn choice(random: &mut Random, people: u32) -> Vec<u32> {
    let stay = |random: &mut Random, gone: usize| (0..people).filter(|_| !random.one_in(gone)).collect::<Vec<u32>>();
    let sort = random.below(9);
    let mut choice = match sort {
        0 => Vec::new(),
        1 => (0..people).collect(),
        2 => stay(random, 10),
        3 => (0..people).filter(|_| random.one_in(8)).collect(),
        _ => stay(random, 2),
    };
    let at = random.below(choice.len() + 1);
    match sort {
        4 if at + 1 < choice.len() => choice.swap(at, at + 1),
        5 if at < choice.len() => choice.insert(at, choice[at]),
        6 => choice.push(random.pick(&[people, people + 1, u32::MAX, 1 << 31])),
        7 => choice.insert(at, random.pick(&[people, u32::MAX, 0, 1 << 24])),
        _ => {}
    }
    choice
}
