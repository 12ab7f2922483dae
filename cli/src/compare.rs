//! Records of a source beside those of its release: whether each is the choice that the library makes, and the tallies.

use sikalumdo::{Facts, Record};

use crate::people::Choice;
use crate::records::Entry;
use crate::recount::Recount;
use crate::totals::Totals;

/// What pairs of records are compared by.
pub struct Terms {
    /// The facts of the source's header.
    pub source: Facts,
    /// The facts of the release's header.
    pub release: Facts,
    /// Who stays and who left.
    pub choice: Choice,
    /// The offsets of the INFO fields that are recounted.
    pub offsets: [Option<u32>; 4],
}

/// Sums over the pairs.
#[derive(Default, Clone)]
pub struct Sums {
    /// Everybody, in the source.
    pub source: Totals,
    /// Those who stay, in the release.
    pub stay: Totals,
    /// Those who left, in the source.
    pub left: Totals,
    /// What INFO still counts.
    pub recount: Recount,
    /// Pairs that have a tally on one side alone or on neither.
    pub without_tally: u64,
}

/// What one thread found: how many pairs from the first on are the same, and their sums.
#[derive(Default)]
pub struct Compared {
    /// Pairs that are the same, up to the first that is not.
    pub same: usize,
    /// Sums over those pairs.
    pub sums: Sums,
    buffer: Vec<u8>,
}

/// The choice of some people from a record of the source, in a buffer that is kept; none where it is refused.
pub fn chosen<'b>(bytes: &[u8], facts: &Facts, people: &[u32], buffer: &'b mut Vec<u8>) -> Option<&'b [u8]> {
    if buffer.len() < bytes.len() {
        buffer.resize(bytes.len().next_power_of_two(), 0);
    }
    let length = sikalumdo::choose(bytes, facts, people, buffer).ok()?;
    buffer.get(..length)
}

impl Sums {
    /// Takes in the tallies of a pair.
    pub fn add(&mut self, terms: &Terms, source: &[u8], release: &[u8], buffer: &mut Vec<u8>) {
        let leave = &terms.choice.leave;
        let left_facts = Facts { people: leave.len() as u32, ..terms.source };
        let left = chosen(source, &terms.source, leave, buffer).map(|left| sikalumdo::tally(left, &left_facts));
        let both = (sikalumdo::tally(source, &terms.source), sikalumdo::tally(release, &terms.release), left);
        let (Ok(whole), Ok(stay), Some(Ok(left))) = both else {
            self.without_tally += 1;
            return;
        };
        self.source.add(&whole);
        self.stay.add(&stay);
        self.left.add(&left);
        if terms.offsets.iter().any(Option::is_some) {
            // A record that was tallied can be read.
            if let Ok(record) = Record::read(release, &terms.release) {
                self.recount.add(&record, &stay, &terms.offsets);
            }
        }
    }

    /// Takes in the sums of other pairs.
    pub fn join(&mut self, other: &Sums) {
        self.source.join(&other.source);
        self.stay.join(&other.stay);
        self.left.join(&other.left);
        self.recount.join(&other.recount);
        self.without_tally += other.without_tally;
    }

    /// Each counter: its name, the source's sum, that of those who stay and that of those who left.
    pub fn counters(&self) -> Vec<(String, [u64; 3])> {
        let mut all = vec![
            ("people, summed over records".to_string(), [self.source.people, self.stay.people, self.left.people]),
            ("people without a genotype".to_string(), [self.source.without, self.stay.without, self.left.without]),
            ("missing alleles".to_string(), [self.source.missing, self.stay.missing, self.left.missing]),
        ];
        let calls = self.source.calls.iter().zip(self.stay.calls).zip(self.left.calls).enumerate();
        let used = calls.filter(|(allele, ((&whole, stay), left))| *allele < 2 || whole + stay + left > 0);
        all.extend(
            used.map(|(allele, ((&whole, stay), left))| (format!("calls of allele {allele}"), [whole, stay, left])),
        );
        all
    }
}

impl Compared {
    /// Begins anew, with the room that there is.
    pub fn clear(&mut self) {
        self.same = 0;
        self.sums = Sums::default();
    }

    /// Compares pairs up to the first that is not the same.
    pub fn compare(&mut self, terms: &Terms, pairs: &[(Entry, Entry)]) {
        for (source, release) in pairs {
            let due = chosen(source.bytes, &terms.source, &terms.choice.stay, &mut self.buffer);
            if due != Some(release.bytes) {
                return;
            }
            self.sums.add(terms, source.bytes, release.bytes, &mut self.buffer);
            self.same += 1;
        }
    }
}
