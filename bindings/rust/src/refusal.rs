//! Refusals: why a call was not accepted, and where in the record.

use std::error::Error;
use std::fmt;

/// Why a call was refused: one of the eighteen numbers that a refusal carries, and a byte offset from the record's
/// start, 0 where the reason is no byte of the record.
#[derive(Debug, Clone, Copy, PartialEq, Eq, Hash)]
pub struct Refusal {
    /// The refusal's number, from 1 to 18.
    pub number: u32,
    /// The place, a byte offset from the record's start.
    pub place: u32,
}

impl Refusal {
    /// What the number says, in a few words.
    ///
    /// ```
    /// let refusal = sikalumdo::Refusal { number: 4, place: 50 };
    /// assert_eq!(refusal.to_string(), "refusal 4 at 50: a block has bytes over");
    /// ```
    pub fn words(&self) -> &'static str {
        match self.number {
            1 => "fewer bytes than the record's length, or than 8",
            2 => "the record is, or would be, over 16,777,216 bytes",
            3 => "a value needs bytes past its block, or l_shared is below 24",
            4 => "a block has bytes over",
            5 => "a fixed field or a count breaks its rule or would pass its most",
            6 => "a type that is unused or wrong there, or a key or true length that isn't one integer",
            7 => "a true length below 15, an empty allele, or a list that isn't people x length",
            8 => "a key or filter outside the dictionary",
            9 => "a reserved value, an element after an end of vector, or a bad allele byte",
            10 => "a GT code that is negative and no mark, or its allele is too high",
            11 => "a filter or FORMAT key repeated",
            12 => "a builder's turn out of order",
            13 => "the lent buffer is too short for what would be written",
            14 => "a choice not ascending or out of range",
            15 => "a tally of more than 64 alleles",
            16 => "no field of that number",
            17 => "QUAL is not printable: it is not missing and no whole number from 0 to 16,777,215",
            18 => "a list of names shorter than its dictionary",
            _ => "a number that no refusal carries",
        }
    }
}

impl fmt::Display for Refusal {
    fn fmt(&self, form: &mut fmt::Formatter<'_>) -> fmt::Result {
        write!(form, "refusal {} at {}: {}", self.number, self.place, self.words())
    }
}

impl Error for Refusal {}
