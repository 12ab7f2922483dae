//! INFO fields that count people or alleles stay as they were in a release: where they no longer agree with a recount.

use sikalumdo::{Record, Tally};

use crate::header::Header;

/// The fields that are recounted.
pub const COUNTS: [&str; 4] = ["AC", "AN", "AF", "NS"];
/// How far a frequency, which is often rounded, may be from the recount.
const ROUNDED: f64 = 0.001;
/// The least code of GT that calls an allele.
const FIRST_CALL: i32 = 2;

/// In how many records each field is there, and in how many it disagrees.
#[derive(Default, Clone)]
pub struct Recount {
    /// Records that have the field.
    pub there: [u64; 4],
    /// Records in which it disagrees.
    pub stale: [u64; 4],
}

/// How many people have an allele called.
fn called_people(record: &Record) -> u64 {
    let site = record.site();
    let gt = record.bytes().get(site.gt_place as usize..).unwrap_or_default();
    let calls =
        |index: u64| sikalumdo::shown(gt, site.gt_type, index as usize).is_some_and(|code| code as i32 >= FIRST_CALL);
    let (people, slots) = (u64::from(site.people), u64::from(site.gt_len));
    (0..people).filter(|person| (0..slots).any(|slot| calls(person * slots + slot))).count() as u64
}

/// The offsets of the fields in a header's dictionary.
pub fn offsets(header: &Header) -> [Option<u32>; 4] {
    COUNTS.map(|name| header.strings.offset(name.as_bytes()))
}

impl Recount {
    /// Recounts a record of the release, whose tally is this. Where nobody has a genotype there is nothing to recount.
    pub fn add(&mut self, record: &Record, tally: &Tally, offsets: &[Option<u32>; 4]) {
        for pair in record.pairs() {
            let Some(which) = offsets.iter().position(|&offset| offset == Some(pair.key)) else { continue };
            let values: Vec<u32> = (0..).map_while(|at| sikalumdo::shown(pair.elements, pair.code, at)).collect();
            let is_stale = tally.without < tally.people && !agrees(which, &values, record, tally);
            self.there.iter_mut().skip(which).take(1).for_each(|count| *count += 1);
            self.stale.iter_mut().skip(which).take(1).for_each(|count| *count += u64::from(is_stale));
        }
    }

    /// Takes in the counts of other records.
    pub fn join(&mut self, other: &Recount) {
        self.there.iter_mut().zip(other.there).for_each(|(sum, more)| *sum += more);
        self.stale.iter_mut().zip(other.stale).for_each(|(sum, more)| *sum += more);
    }
}

/// Whether the values of a field are those of the recount.
fn agrees(which: usize, values: &[u32], record: &Record, tally: &Tally) -> bool {
    let all: u64 = tally.calls.iter().sum();
    let others: Vec<u64> = tally.calls.iter().take(tally.alleles as usize).skip(1).copied().collect();
    let numbers = |counted: &[u64]| values.iter().map(|&value| u64::from(value)).eq(counted.iter().copied());
    match which {
        0 => numbers(&others),
        1 => numbers(&[all]),
        2 => {
            let near = |(&bits, &calls): (&u32, &u64)| {
                (f64::from(f32::from_bits(bits)) - calls as f64 / all.max(1) as f64).abs() <= ROUNDED
            };
            values.len() == others.len() && values.iter().zip(&others).all(near)
        }
        _ => numbers(&[called_people(record)]),
    }
}
