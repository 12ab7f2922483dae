//! Descriptors: the byte before each value whose low half is the type and whose high half the length, with the true
//! length that may follow, and the one integer that keys and true lengths are.
//!
//! A block is handed in as the record's bytes up to the block's end, so that an index is a place and the block's end
//! is the slice's length.

use crate::elements::shown;
use crate::refusal::{Refusal, BYTES_OVER, PAST_BLOCK, WRONG_LENGTH, WRONG_TYPE};
use crate::types::{Type, INTEGER, MAY_BE_BARE, TYPES};

/// A typed value: its type code, the length of each of its vectors, and the places of its element bytes. A bare 00 has
/// code 0 and length 0.
pub(crate) struct Value {
    pub code: u8,
    pub len: u32,
    pub first: usize,
    pub stop: usize,
}

/// One integer with a descriptor of its own: the number as it is shown, its place, and the place after it.
pub(crate) struct Single {
    pub number: i32,
    pub first: usize,
    pub stop: usize,
}

/// The descriptor's type code with its row of the table, and its high half.
fn descriptor(block: &[u8], at: usize) -> Result<(u8, &'static Type, u8), Refusal> {
    let byte = *block.get(at).ok_or_else(|| past(block))?;
    let code = byte & 15;
    Ok((code, &TYPES[code as usize], byte >> 4))
}

fn past(block: &[u8]) -> Refusal {
    Refusal::at(PAST_BLOCK, block.len())
}

/// The key or true length at a place: its descriptor is 11, 12 or 13.
pub(crate) fn single(block: &[u8], at: usize) -> Result<Single, Refusal> {
    let (code, row, length) = descriptor(block, at)?;
    if length != 1 || row.uses & INTEGER == 0 {
        return Err(Refusal::at(WRONG_TYPE, at));
    }
    let first = at + 1;
    let bits = shown(&block[first..], code, 0).ok_or_else(|| past(block))?;
    Ok(Single { number: bits as i32, first, stop: first + row.width })
}

/// The value at a place, of `vectors` vectors, with a type of the use wanted and all its elements in the block, or a
/// bare 00 where that may stand. The elements themselves aren't judged.
pub(crate) fn value(block: &[u8], at: usize, usage: u8, vectors: u32) -> Result<Value, Refusal> {
    let (code, row, length) = descriptor(block, at)?;
    let is_bare = (code, length) == (0, 0) && usage & MAY_BE_BARE != 0;
    if row.uses & usage == 0 && !is_bare {
        return Err(Refusal::at(WRONG_TYPE, at));
    }
    let (len, first) = match length {
        15 => true_length(block, at + 1)?,
        short => (u32::from(short), at + 1),
    };
    // Taken in 64 bits: people of at most 32 and a length of 31 have 63. What would pass 64 with the width passes the
    // block, too; no record has so many people, but whoever fetches by numbers of their own may say so.
    let bytes = (u64::from(vectors) * u64::from(len)).saturating_mul(row.width as u64);
    if bytes > (block.len() - first) as u64 {
        return Err(past(block));
    }
    Ok(Value { code, len, first, stop: first + bytes as usize })
}

/// A true length of 15 or more, and the place after it. Marks are negative, so below 15 as well.
fn true_length(block: &[u8], at: usize) -> Result<(u32, usize), Refusal> {
    let length = single(block, at)?;
    if length.number < 15 {
        return Err(Refusal::at(WRONG_LENGTH, at));
    }
    Ok((length.number as u32, length.stop))
}

/// A block has to be filled to its last byte by what was read up to `at`.
pub(crate) fn filled(block: &[u8], at: usize) -> Result<(), Refusal> {
    if at < block.len() {
        return Err(Refusal::at(BYTES_OVER, at));
    }
    Ok(())
}
