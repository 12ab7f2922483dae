//! Refusals: the sixteen numbers of document 01's table and those that document 02 has added, each given with a place
//! in the record.

/// Why a call was refused, and at which byte offset from the record's start.
#[derive(Debug, Clone, Copy, PartialEq, Eq)]
pub struct Refusal {
    pub number: u32,
    pub place: u32,
}

impl Refusal {
    /// Places lie within a record of at most 16,777,216 bytes, so they fit. The one exception is the walker on a
    /// record that was not read; it drops the refusal and says "end".
    pub(crate) fn at(number: u32, place: usize) -> Refusal {
        Refusal { number, place: place as u32 }
    }

    /// Refusals that concern no byte of the record have place 0, as all of building's have.
    pub(crate) fn of(number: u32) -> Refusal {
        Refusal { number, place: 0 }
    }
}

/// An element that breaks its rule: its index in the list it stands in, and the refusal's number. Reading turns the
/// index into a place; building's places are all 0.
#[derive(Debug, Clone, Copy, PartialEq, Eq)]
pub(crate) struct Fault {
    pub index: usize,
    pub number: u32,
}

impl Fault {
    pub fn placed(self, first: usize, width: usize) -> Refusal {
        Refusal::at(self.number, first + self.index * width)
    }
}

/// Fewer bytes than the record's length, or than 8.
pub(crate) const TOO_FEW_BYTES: u32 = 1;
/// The record is, or would be, over 16,777,216 bytes.
pub(crate) const TOO_LONG: u32 = 2;
/// A value needs bytes past its block, or l_shared is below 24.
pub(crate) const PAST_BLOCK: u32 = 3;
/// A block has bytes over.
pub(crate) const BYTES_OVER: u32 = 4;
/// A fixed field or a count breaks its rule or, in building, would pass its most.
pub(crate) const FIXED_FIELD: u32 = 5;
/// A type that is unused or wrong there; a key or true length that isn't one integer.
pub(crate) const WRONG_TYPE: u32 = 6;
/// True length below 15; empty allele; builder's list isn't people x length.
pub(crate) const WRONG_LENGTH: u32 = 7;
/// A key or filter outside the dictionary.
pub(crate) const OUTSIDE_DICTIONARY: u32 = 8;
/// Reserved value, element after an end of vector, bad allele byte.
pub(crate) const BAD_ELEMENT: u32 = 9;
/// GT code negative (not a mark), or allele too high.
pub(crate) const BAD_GENOTYPE: u32 = 10;
/// Filter or FORMAT key repeated.
pub(crate) const REPEATED: u32 = 11;
/// Builder turn out of order.
pub(crate) const OUT_OF_ORDER: u32 = 12;
/// Lent buffer too short for what would be written.
pub(crate) const NO_ROOM: u32 = 13;
/// Choice not ascending or out of range.
pub(crate) const BAD_CHOICE: u32 = 14;
/// Tally of more than 64 alleles.
pub(crate) const TOO_MANY_ALLELES: u32 = 15;
/// No field of that number.
pub(crate) const NO_FIELD: u32 = 16;
/// QUAL isn't missing and no whole number from 0 to 16,777,215.
pub(crate) const QUAL_NOT_PRINTED: u32 = 17;
/// A name list shorter than its dictionary.
pub(crate) const FEW_NAMES: u32 = 18;
