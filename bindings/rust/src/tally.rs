//! The tally of a record's genotypes.

use crate::{ffi, Facts, Refusal};

/// The counts of a record. Missing and called together equal the GT slots that aren't ends of vector.
#[derive(Debug, Clone, Copy, PartialEq, Eq)]
pub struct Tally {
    /// Alleles of the record, REF included.
    pub alleles: u64,
    /// People.
    pub people: u64,
    /// People without a genotype: no GT, length 0, or an end of vector first.
    pub without: u64,
    /// Missing alleles.
    pub missing: u64,
    /// How often each allele is called; 0 from the record's count of alleles on.
    pub calls: [u64; 64],
}

/// Tallies the genotypes of the record at the start of `s`.
///
/// # Errors
///
/// Reading's refusal, then 15.
pub fn tally(s: &[u8], facts: &Facts) -> Result<Tally, Refusal> {
    let [alleles, people, without, missing, calls @ ..] = ffi::tally(s, facts)?;
    Ok(Tally { alleles, people, without, missing, calls })
}
