//! The tally: people without a genotype, missing alleles, and how often each of up to 64 alleles is called.

use crate::elements::{numbers, Integer, END};
use crate::facts::Facts;
use crate::read::{read, Site};
use crate::refusal::{Refusal, TOO_MANY_ALLELES};
use crate::types::width;

/// The counts of a record. `missing` and the `counts` together equal the GT slots that aren't ends of vector.
#[derive(Debug, Clone, Copy, PartialEq, Eq)]
pub struct Tally {
    pub site: Site,
    /// People without a genotype: no GT, length 0 (a bare 00 too), or an end of vector first.
    pub without: u64,
    /// Missing alleles.
    pub missing: u64,
    /// How often each allele is called; 0 from the record's allele count on.
    pub counts: [u64; 64],
}

impl Tally {
    /// Adds a slot of a sound GT value, as it is shown, a number of times.
    fn add(&mut self, slot: i32, times: u64) {
        match slot {
            END => {}
            // Codes 0 and 1 are missing alleles, and so is the missing mark, which is negative.
            ..=1 => self.missing += times,
            code => self.counts[code as usize / 2 - 1] += times,
        }
    }
}

/// Tallies a record: reading's refusal first, then 15.
pub fn tally(s: &[u8], facts: &Facts) -> Result<Tally, Refusal> {
    let site = read(s, facts)?;
    let mut tally = Tally { site, without: 0, missing: 0, counts: [0; 64] };
    if site.alleles as usize > tally.counts.len() {
        return Err(Refusal::of(TOO_MANY_ALLELES));
    }
    if site.gt_len == 0 {
        tally.without = u64::from(site.people);
        return Ok(tally);
    }
    let person = site.gt_len as usize * width(site.gt_type);
    let part = &s[site.gt_first as usize..][..site.people as usize * person];
    if site.gt_type == 1 && part.len() >= MANY {
        for (byte, times) in (0..=u8::MAX).zip(histogram(part)).filter(|&(_, times)| times > 0) {
            tally.add((byte as i8).shown(), times);
        }
    } else {
        numbers(part, site.gt_type).for_each(|slot| tally.add(slot, 1));
    }
    let slots = u64::from(site.people) * u64::from(site.gt_len);
    if tally.missing + tally.counts.iter().sum::<u64>() < slots {
        let first = |vector: &[u8]| numbers(vector, site.gt_type).next();
        tally.without = part.chunks_exact(person).filter(|vector| first(vector) == Some(END)).count() as u64;
    }
    Ok(tally)
}

/// Slots from which on clearing a histogram's tables is worth its while.
const MANY: usize = 512;

/// How often each byte stands in a part. Genotypes repeat, and adding to one counter again and again has to wait for
/// the last addition; four tables in turn don't wait.
fn histogram(part: &[u8]) -> [u64; 256] {
    let mut tables = [[0u32; 256]; 4];
    let (fours, rest) = part.as_chunks::<4>();
    for four in fours {
        for (table, byte) in tables.iter_mut().zip(four) {
            table[*byte as usize] += 1;
        }
    }
    for byte in rest {
        tables[0][*byte as usize] += 1;
    }
    std::array::from_fn(|byte| tables.iter().map(|table| u64::from(table[byte])).sum())
}
