//! Records that are not at their place: missing there, one too many, standing twice, or moved.

use std::collections::HashMap;
use std::hash::{DefaultHasher, Hash, Hasher};

use crate::compare::{chosen, Terms};
use crate::differences::Differences;
use crate::header::Header;
use crate::place::{record_words, refusal_words};
use crate::records::Entry;

/// How many records out of their place are remembered, to be known again.
const REMEMBERED: usize = 4096;

/// The records that were not at their place so far. A number is by the digest of what stands, or should, in the release.
#[derive(Default)]
pub struct Shifts {
    missing: HashMap<u64, u64>,
    extra: HashMap<u64, u64>,
    last: Option<u64>,
}

fn digest(bytes: &[u8]) -> u64 {
    let mut hasher = DefaultHasher::new();
    bytes.hash(&mut hasher);
    hasher.finish()
}

fn remember(numbers: &mut HashMap<u64, u64>, digest: u64, number: u64) {
    if numbers.len() < REMEMBERED {
        numbers.insert(digest, number);
    }
}

impl Shifts {
    /// Notes the last record of the release that was at its place.
    pub fn note_last(&mut self, release: &Entry) {
        self.last = Some(digest(release.bytes));
    }

    /// Tells that records of the source are not in the release at their place.
    pub fn tell_missing(&mut self, terms: &Terms, header: &Header, entries: &[Entry], differences: &mut Differences) {
        let mut buffer = Vec::new();
        for entry in entries {
            let due = chosen(entry.bytes, &terms.source, &terms.choice.stay, &mut buffer).map(digest);
            let moved = due.and_then(|due| self.extra.get(&due));
            let refused = sikalumdo::read(entry.bytes, &terms.source).err();
            let record = record_words(header, entry);
            differences.add(|| match (moved, refused) {
                (Some(there), _) => format!("{record} of the source is moved: it is record {there} of the release"),
                (None, Some(refusal)) => {
                    format!("not in the release: the source's {}", refusal_words(header, entry, &refusal))
                }
                (None, None) => format!("{record} of the source is not at its place in the release"),
            });
            if let Some(due) = due {
                remember(&mut self.missing, due, entry.number);
            }
        }
    }

    /// Tells that records of the release are too many where they stand.
    pub fn tell_extra(&mut self, header: &Header, entries: &[Entry], differences: &mut Differences) {
        for entry in entries {
            let own = digest(entry.bytes);
            let how = match self.missing.get(&own) {
                Some(number) => format!("it is record {number} of the source, moved"),
                None if self.last == Some(own) => "it stands twice".to_string(),
                None => "it is not what the source has there".to_string(),
            };
            let record = record_words(header, entry);
            differences.add(|| format!("{record} of the release is one too many there: {how}"));
            remember(&mut self.extra, own, entry.number);
        }
    }
}
