//! Reading: a whole record judged, and its length, its fixed fields and its counts answered.

use crate::{ffi, Facts, Refusal};

/// What reading answers on an accepted record.
#[derive(Debug, Clone, Copy, PartialEq, Eq)]
pub struct Site {
    /// The record's length in all, both block lengths included.
    pub length: u32,
    /// The place where the site block ends and the genotype block begins.
    pub border: u32,
    /// CHROM, an offset below the contigs.
    pub chrom: i32,
    /// POS, zero-based; [`Site::vcf_pos`] is the VCF position.
    pub pos: i32,
    /// rlen, 0 or more.
    pub rlen: i32,
    /// QUAL as 32 float bits; 7F800001 is missing, and a float may not keep those bits.
    pub qual_bits: u32,
    /// Alleles, REF included.
    pub alleles: u32,
    /// INFO fields.
    pub infos: u32,
    /// FORMAT fields.
    pub formats: u32,
    /// People, which equal the number given.
    pub people: u32,
    /// GT's type: 1, 2 or 3; 0 for a bare 00, and 0 with length and place 0 where the record has no GT field.
    pub gt_type: u8,
    /// GT's length for each person.
    pub gt_len: u32,
    /// The place of GT's first element, or just after its descriptor for length 0.
    pub gt_place: u32,
}

impl Site {
    /// The VCF position, where the first base is 1: one more than POS, and 0 for −1.
    pub fn vcf_pos(&self) -> i32 {
        vcf_pos(self.pos)
    }

    /// The numbers as reading told them.
    #[rustfmt::skip]
    pub(crate) fn numbers(&self) -> [u64; 13] {
        [
            self.length.into(), self.border.into(), (self.chrom as u32).into(), (self.pos as u32).into(),
            (self.rlen as u32).into(), self.qual_bits.into(), self.alleles.into(), self.infos.into(),
            self.formats.into(), self.people.into(), self.gt_type.into(), self.gt_len.into(), self.gt_place.into(),
        ]
    }
}

/// The VCF position of a POS, zero-based as it stands in a record; of the largest number, which is no POS, the smallest.
pub fn vcf_pos(pos: i32) -> i32 {
    ffi::vcf_pos(pos as u32)
}

/// Reads the record at the start of `s`; bytes after it belong to the next one. [`Record::read`](crate::Record::read)
/// keeps the bytes beside the answer, to fetch from.
///
/// # Errors
///
/// 1 to 11, the first rule that is broken in byte order, with its place.
pub fn read(s: &[u8], facts: &Facts) -> Result<Site, Refusal> {
    let numbers = ffi::read(s, facts)?;
    // Every number is one of 32 bits, and the type one of 8.
    let word = |index: usize| numbers[index] as u32;
    Ok(Site {
        length: word(0),
        border: word(1),
        chrom: word(2) as i32,
        pos: word(3) as i32,
        rlen: word(4) as i32,
        qual_bits: word(5),
        alleles: word(6),
        infos: word(7),
        formats: word(8),
        people: word(9),
        gt_type: word(10) as u8,
        gt_len: word(11),
        gt_place: word(12),
    })
}
