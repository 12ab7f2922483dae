//! The dictionaries of a header: which offset each name has, by IDX or by the order of the lines.

use std::collections::{BTreeMap, HashMap};

use crate::header::{shown, Line};
use crate::stop::{Outcome, Stop};

/// Names by offset.
pub struct Dictionary {
    names: BTreeMap<u32, Vec<u8>>,
    offsets: HashMap<Vec<u8>, u32>,
}

/// What a line of the form `##KIND=<ID=..,IDX=..>` sets that the program asks for.
pub struct Settings<'a> {
    /// The name.
    pub id: Option<&'a [u8]>,
    /// The offset, as it is written.
    pub idx: Option<&'a [u8]>,
}

/// The next setting of a line's list and what is left after it. Text in quotes may hold anything.
pub fn setting(list: &[u8]) -> Option<(&[u8], &[u8], &[u8])> {
    let equals = list.iter().position(|&byte| byte == b'=')?;
    let (key, value) = (list.get(..equals)?, list.get(equals + 1..)?);
    let length = match value.first() {
        Some(b'"') => quoted(value),
        _ => value.iter().position(|byte| b",>".contains(byte)).unwrap_or(value.len()),
    };
    let rest = value.get(length..)?;
    let next = rest.iter().position(|&byte| byte == b',').map_or(rest.len(), |comma| comma + 1);
    Some((key, value.get(..length)?, rest.get(next..)?))
}

/// The length of the text in quotes that a value begins with, both quotes included.
fn quoted(value: &[u8]) -> usize {
    let mut escaped = false;
    let end = value.iter().skip(1).position(|&byte| {
        let ends = byte == b'"' && !escaped;
        escaped = byte == b'\\' && !escaped;
        ends
    });
    end.map_or(value.len(), |end| end + 2)
}

/// The settings of a line, where it is one of these kinds.
pub fn settings<'a>(line: &'a [u8], kinds: &[&str]) -> Option<Settings<'a>> {
    let line = line.strip_prefix(b"##")?;
    let mut list = kinds.iter().find_map(|kind| line.strip_prefix(kind.as_bytes())?.strip_prefix(b"=<"))?;
    let mut found = Settings { id: None, idx: None };
    while let Some((key, value, rest)) = setting(list) {
        match key {
            b"ID" => found.id = found.id.or(Some(value)),
            b"IDX" => found.idx = found.idx.or(Some(value)),
            _ => {}
        }
        list = rest;
    }
    Some(found)
}

/// A line without its IDX, which only the records of a BCF file need, and the comma that parts it from its neighbour.
pub fn without_idx(line: &[u8]) -> Vec<u8> {
    let opened = line.iter().position(|&byte| byte == b'<').map_or(line.len(), |at| at + 1);
    let mut list = line.get(opened..).unwrap_or_default();
    while let Some((key, value, rest)) = setting(list) {
        if key == b"IDX" {
            let from = line.len() - list.len();
            let to = from + key.len() + 1 + value.len();
            let (before, after) = (line.get(..from).unwrap_or_default(), line.get(to..).unwrap_or_default());
            return match before.strip_suffix(b",") {
                Some(before) => [before, after].concat(),
                None => [before, after.strip_prefix(b",").unwrap_or(after)].concat(),
            };
        }
        list = rest;
    }
    line.to_vec()
}

/// A written offset as a number. The largest is left out, so that the dictionary's size is a number too.
fn number(name: &str, line: &Line, idx: &[u8]) -> Outcome<u32> {
    let digits = std::str::from_utf8(idx).ok().and_then(|digits| digits.parse::<u32>().ok());
    digits.filter(|&offset| offset < u32::MAX).ok_or_else(|| {
        Stop::at(name, line.at, format!("the IDX '{}' is no offset; expected a number below 4294967295", shown(idx)))
    })
}

/// The dictionary of the lines of these kinds: what is known beforehand, then by IDX or, where no line has one, by the
/// order of appearance.
pub fn dictionary(name: &str, lines: &[Line], kinds: &[&str], known: &[&[u8]]) -> Outcome<Dictionary> {
    let mut found = Dictionary { names: BTreeMap::new(), offsets: HashMap::new() };
    for (offset, id) in known.iter().enumerate() {
        found.names.insert(offset as u32, id.to_vec());
        found.offsets.insert(id.to_vec(), offset as u32);
    }
    let stated = lines.iter().filter_map(|line| Some((line, settings(&line.text, kinds)?)));
    let stated: Vec<(&Line, Settings)> = stated.collect();
    let in_order = stated.iter().all(|(_, set)| set.idx.is_none() || set.id.is_some_and(|id| known.contains(&id)));
    for (line, set) in stated {
        found.state(name, line, &set, in_order)?;
    }
    Ok(found)
}

impl Dictionary {
    /// Takes in what one line states.
    fn state(&mut self, name: &str, line: &Line, set: &Settings, in_order: bool) -> Outcome<()> {
        let Some(id) = set.id.filter(|id| !id.is_empty()) else {
            return Err(Stop::at(name, line.at, "a line of the dictionary has no ID; expected ID=NAME"));
        };
        let before = self.offset(id);
        let offset = match (set.idx, before) {
            (Some(idx), _) => number(name, line, idx)?,
            (None, Some(before)) => before,
            (None, None) if in_order => self.names.len() as u32,
            (None, None) => {
                let words = format!(
                    "the dictionary leaves out the offset of {}; expected IDX here as on other lines",
                    shown(id)
                );
                return Err(Stop::at(name, line.at, words));
            }
        };
        if before.is_some_and(|before| before != offset) {
            return Err(Stop::at(name, line.at, format!("{} has two offsets; expected one IDX for a name", shown(id))));
        }
        let holder = self.names.entry(offset).or_insert_with(|| id.to_vec());
        if holder != id {
            let words = format!("the offset {offset} has two names, {} and {}; expected one", shown(holder), shown(id));
            return Err(Stop::at(name, line.at, words));
        }
        self.offsets.insert(id.to_vec(), offset);
        Ok(())
    }

    /// One more than the largest offset.
    pub fn size(&self) -> u32 {
        self.names.keys().next_back().map_or(0, |&last| last.saturating_add(1))
    }

    /// The offset of a name.
    pub fn offset(&self, name: &[u8]) -> Option<u32> {
        self.offsets.get(name).copied()
    }

    /// The name at an offset.
    pub fn name(&self, offset: u32) -> Option<&[u8]> {
        self.names.get(&offset).map(Vec::as_slice)
    }

    /// Every name with its offset.
    pub fn all(&self) -> impl Iterator<Item = (u32, &[u8])> {
        self.names.iter().map(|(&offset, name)| (offset, name.as_slice()))
    }
}
