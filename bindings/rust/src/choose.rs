//! Choosing people: the record of some of a record's people.

use crate::{ffi, Facts, Refusal};

/// Writes the record of the chosen people to the start of `buf` and gives its length. The choice is a list of person
/// numbers, strictly ascending, each below the record's people; it may be empty. Each chosen person's elements keep
/// their width and order, and buffer bytes past the chosen record stay. A buffer as long as the record is enough.
///
/// # Errors
///
/// Reading's refusal, then 14, then 13; a refusal writes nothing.
pub fn choose(s: &[u8], facts: &Facts, choice: &[u32], buf: &mut [u8]) -> Result<usize, Refusal> {
    ffi::choose(s, facts, choice, buf).map(|length| length as usize)
}
