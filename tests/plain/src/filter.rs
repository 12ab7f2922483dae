//! FILTER: a list of offsets below the dictionary size, none twice.

use std::collections::HashSet;

use crate::facts::Facts;
use crate::refusal::{Fault, OUTSIDE_DICTIONARY, REPEATED};

/// Offsets that are compared one by one; only a longer list pays for a set.
const FEW: usize = 32;

/// The first fault among the offsets, by element 8 then 11.
pub(crate) fn judge(offsets: impl Iterator<Item = i32>, facts: &Facts) -> Result<(), Fault> {
    let mut few = [0; FEW];
    let mut many = HashSet::new();
    for (index, offset) in offsets.enumerate() {
        if !facts.in_dictionary(offset) {
            return Err(Fault { index, number: OUTSIDE_DICTIONARY });
        }
        if few[..index.min(FEW)].contains(&offset) || (index >= FEW && !many.insert(offset)) {
            return Err(Fault { index, number: REPEATED });
        }
        if index < FEW {
            few[index] = offset;
        }
    }
    Ok(())
}
