//! Who stays and who leaves, by a list of names.

use std::collections::{HashMap, HashSet};
use std::io::Read;

use crate::args::{Asked, List};
use crate::header::{shown, Header};
use crate::source::{called, opened};
use crate::stop::{Outcome, Stop};

/// The people of a header, parted in two; numbers from 0, ascending.
pub struct Choice {
    /// The numbers of those who stay.
    pub stay: Vec<u32>,
    /// The numbers of those who leave.
    pub leave: Vec<u32>,
}

/// The names in a list, one a line; lines without a name are passed over.
fn listed(path: &str) -> Outcome<Vec<Vec<u8>>> {
    let name = called(path);
    let mut text = Vec::new();
    let read = opened(path).and_then(|mut file| file.read_to_end(&mut text));
    read.map_err(|error| Stop::machine(&name, "the list of names cannot be read", &error))?;
    let lines = text.split(|&byte| byte == b'\n').map(|line| line.strip_suffix(b"\r").unwrap_or(line));
    Ok(lines.filter(|line| !line.is_empty()).map(<[u8]>::to_vec).collect())
}

/// The numbers of the people in a list. Each name is somebody's and stands once: a slip of the pen must not let
/// anybody stay.
fn numbers(path: &str, header: &Header, nobody: bool) -> Outcome<HashSet<u32>> {
    let (file, names) = (called(path), listed(path)?);
    let unusable = |words: String| Err(Stop::usage(format!("{file}: {words}")));
    if names.is_empty() && !nobody {
        return unusable("the list of names is empty; expected a name, or --nobody if that is meant".to_string());
    }
    let known: HashMap<&[u8], u32> = header.people.iter().map(Vec::as_slice).zip(0..).collect();
    let mut numbers = HashSet::new();
    for name in &names {
        let Some(&number) = known.get(name.as_slice()) else {
            return unusable(format!("nobody has the name '{}'; expected names of the header", shown(name)));
        };
        if !numbers.insert(number) {
            return unusable(format!("the name '{}' stands twice; expected each once", shown(name)));
        }
    }
    Ok(numbers)
}

impl Choice {
    /// The choice that was asked for among the people of a header.
    pub fn asked(asked: &Asked, header: &Header) -> Outcome<Choice> {
        let (path, listed_stay) = match &asked.list {
            Some(List::Only(path)) => (path, true),
            Some(List::Without(path)) => (path, false),
            None => return Err(Stop::usage("no list of names; expected --without NAMES or --only NAMES")),
        };
        let listed = numbers(path, header, asked.nobody)?;
        let all = 0..header.people.len() as u32;
        let (stay, leave) = all.partition(|number| listed.contains(number) == listed_stay);
        Ok(Choice { stay, leave })
    }

    /// The names of those who stay, in the header's order.
    pub fn staying<'h>(&self, header: &'h Header) -> Vec<&'h [u8]> {
        named(&self.stay, header)
    }

    /// The names of those who leave, in the header's order.
    pub fn leaving<'h>(&self, header: &'h Header) -> Vec<&'h [u8]> {
        named(&self.leave, header)
    }
}

fn named<'h>(numbers: &[u32], header: &'h Header) -> Vec<&'h [u8]> {
    numbers.iter().filter_map(|&number| header.people.get(number as usize)).map(Vec::as_slice).collect()
}
