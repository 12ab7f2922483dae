//! Lines of a header that name somebody who leaves.

use std::collections::{BTreeSet, HashMap};

use crate::names::{setting, settings};

/// The kinds of line that records or readers need.
const NEEDED: [&str; 5] = ["FILTER", "INFO", "FORMAT", "contig", "ALT"];
/// What such a line sets that is no text about people: a contig `20` is not the person of that name.
const OWN_WORDS: [&[u8]; 5] = [b"ID", b"Number", b"Type", b"IDX", b"length"];

/// The names of everybody, with whether each leaves.
pub struct Leavers<'h> {
    names: HashMap<&'h [u8], bool>,
    lengths: BTreeSet<usize>,
}

/// A line's kind decides what becomes of it where it names somebody who leaves.
#[derive(Debug, Clone, Copy, PartialEq, Eq)]
pub enum Need {
    /// The line may go.
    None,
    /// Records need the line.
    Needed,
}

/// Whether records or readers need a line.
pub fn need(line: &[u8]) -> Need {
    if line.starts_with(b"##fileformat=") || settings(line, &NEEDED).is_some() {
        Need::Needed
    } else {
        Need::None
    }
}

/// Whether a byte can be in the middle of a word.
fn in_word(byte: Option<&u8>) -> bool {
    byte.is_some_and(|byte| byte.is_ascii_alphanumeric() || *byte == b'_' || !byte.is_ascii())
}

impl<'h> Leavers<'h> {
    /// Of those who stay and those who leave.
    pub fn new(staying: &[&'h [u8]], leaving: &[&'h [u8]]) -> Leavers<'h> {
        let stay = staying.iter().map(|&name| (name, false));
        let names: HashMap<&[u8], bool> = stay.chain(leaving.iter().map(|&name| (name, true))).collect();
        let lengths = names.keys().map(|name| name.len()).collect();
        Leavers { names, lengths }
    }

    /// The longest name that stands as a word at a place, and whether its owner leaves.
    fn at(&self, text: &[u8], at: usize) -> Option<(&'h [u8], bool)> {
        let rest = text.get(at..)?;
        let longest_first = self.lengths.iter().rev();
        let words = longest_first.filter(|&&length| !in_word(rest.get(length)));
        let mut known = words.filter_map(|&length| self.names.get_key_value(rest.get(..length)?));
        known.next().map(|(&name, &leaves)| (name, leaves))
    }

    /// The first name of somebody who leaves that stands in a text as a word. A longer name of somebody who stays hides
    /// a shorter one within it.
    fn in_text(&self, text: &[u8]) -> Option<&'h [u8]> {
        let mut at = 0;
        while at < text.len() {
            let begins = at.checked_sub(1).is_none_or(|before| !in_word(text.get(before)));
            match begins.then(|| self.at(text, at)).flatten() {
                Some((name, true)) => return Some(name),
                Some((name, false)) => at += name.len().max(1),
                None => at += 1,
            }
        }
        None
    }

    /// The first of those who leave whom a line of the header names.
    pub fn named(&self, line: &[u8]) -> Option<&'h [u8]> {
        match need(line) {
            Need::None => self.in_text(line),
            Need::Needed => self.in_settings(line),
        }
    }

    fn in_settings(&self, line: &[u8]) -> Option<&'h [u8]> {
        let opened = line.iter().position(|&byte| byte == b'<')?;
        let mut list = line.get(opened + 1..)?;
        while let Some((key, value, rest)) = setting(list) {
            let name = if OWN_WORDS.contains(&key) { None } else { self.in_text(value) };
            if name.is_some() {
                return name;
            }
            list = rest;
        }
        self.in_text(list)
    }
}
