//! The sums of many records' tallies.

use sikalumdo::Tally;

/// The calls of how many alleles a tally has.
const ALLELES: usize = 64;
/// The calls of REF and of the first ALT are told even where there are none.
const ALWAYS: usize = 2;

/// Sums over records, counter by counter.
#[derive(Clone, PartialEq, Eq)]
pub struct Totals {
    /// Records that were tallied.
    pub records: u64,
    /// Records that were refused.
    pub refused: u64,
    /// People, once for each record.
    pub people: u64,
    /// People without a genotype.
    pub without: u64,
    /// Missing alleles.
    pub missing: u64,
    /// Calls by allele.
    pub calls: [u64; ALLELES],
}

impl Default for Totals {
    fn default() -> Totals {
        Totals { records: 0, refused: 0, people: 0, without: 0, missing: 0, calls: [0; ALLELES] }
    }
}

impl Totals {
    /// Takes in the tally of a record.
    pub fn add(&mut self, tally: &Tally) {
        self.records += 1;
        self.people += tally.people;
        self.without += tally.without;
        self.missing += tally.missing;
        self.calls.iter_mut().zip(tally.calls).for_each(|(sum, more)| *sum += more);
    }

    /// Takes in the sums of other records.
    pub fn join(&mut self, other: &Totals) {
        self.records += other.records;
        self.refused += other.refused;
        self.people += other.people;
        self.without += other.without;
        self.missing += other.missing;
        self.calls.iter_mut().zip(other.calls).for_each(|(sum, more)| *sum += more);
    }

    /// Each counter with its name: people, without a genotype, missing, and the calls of each allele that has any.
    pub fn counters(&self) -> Vec<(String, u64)> {
        let mut all = vec![
            ("people, summed over records".to_string(), self.people),
            ("people without a genotype".to_string(), self.without),
            ("missing alleles".to_string(), self.missing),
        ];
        let calls = self.calls.iter().enumerate().filter(|&(allele, &calls)| allele < ALWAYS || calls > 0);
        all.extend(calls.map(|(allele, &calls)| (format!("calls of allele {allele}"), calls)));
        all
    }

    /// A line for each sum, its name and its number with a tab between.
    pub fn lines(&self) -> String {
        let mut lines = format!("records tallied\t{}\nrecords refused\t{}\n", self.records, self.refused);
        for (name, sum) in self.counters() {
            lines.push_str(&format!("{name}\t{sum}\n"));
        }
        lines
    }
}
