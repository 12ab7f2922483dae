//! VCF lines: a record as one line of text, with names that are lent.

use crate::{ffi, Facts, Refusal};

/// The names of a header's strings or contigs as the library takes them: one text, and where each name ends in it. Name
/// i runs from end i − 1 (the first from 0) to end i, as far as the text goes; it is nothing where the ends fall, and
/// stops at its first zero byte. [`NameList`] makes both of the names themselves.
#[derive(Debug, Clone, Copy, PartialEq, Eq)]
pub struct Names<'a> {
    /// The names, one after another.
    pub text: &'a [u8],
    /// The place after each name.
    pub ends: &'a [u32],
}

/// Names that were put one after another, to be lent for many lines. A gap in a dictionary has an empty name.
///
/// ```
/// let contigs: sikalumdo::NameList = ["20", "X"].into_iter().collect();
/// assert_eq!((contigs.lend().text, contigs.lend().ends), (&b"20X"[..], &[2, 3][..]));
/// ```
#[derive(Debug, Clone, Default, PartialEq, Eq)]
pub struct NameList {
    text: Vec<u8>,
    ends: Vec<u32>,
}

impl NameList {
    /// Adds the next name. An end has 32 bits, so what would stand past 4,294,967,295 bytes of names is left off.
    pub fn push(&mut self, name: &[u8]) {
        let room = u32::MAX as usize - self.text.len();
        self.text.extend_from_slice(&name[..name.len().min(room)]);
        self.ends.push(self.text.len() as u32);
    }

    /// The names as they are lent.
    pub fn lend(&self) -> Names<'_> {
        Names { text: &self.text, ends: &self.ends }
    }
}

impl<N: AsRef<[u8]>> FromIterator<N> for NameList {
    fn from_iter<T: IntoIterator<Item = N>>(names: T) -> NameList {
        let mut list = NameList::default();
        names.into_iter().for_each(|name| list.push(name.as_ref()));
        list
    }
}

/// Writes the VCF line of the record at the start of `s`, its line feed included, to the start of `buf` and gives its
/// length. It has CHROM, POS as VCF counts it, ID, REF, ALT, QUAL, FILTER, a dot for INFO and, where the record has a GT
/// field, a FORMAT of GT alone and the call of each person; without GT it has eight columns. Strings and contigs print
/// by the names that are lent, which may be more than the facts say. Buffer bytes past the line stay.
///
/// ```
/// # let facts = sikalumdo::Facts { strings: 4, contigs: 1, people: 2, gt: 3 };
/// # let digits = "23000000070000000000000021380000010000000000E8410100020002000001071747174111001102110E11032102030481";
/// # let byte = |at| u8::from_str_radix(&digits[at..at + 2], 16).unwrap();
/// # let record: Vec<u8> = (0..digits.len()).step_by(2).map(byte).collect();
/// let strings: sikalumdo::NameList = ["PASS", "q10", "DP", "GT"].into_iter().collect();
/// let contigs: sikalumdo::NameList = ["20"].into_iter().collect();
/// let mut buf = [0; 64];
/// let length = sikalumdo::vcf_line(&record, &facts, strings.lend(), contigs.lend(), &mut buf)?;
/// assert_eq!(&buf[..length], b"20\t14370\t.\tG\tA\t29\tPASS\t.\tGT\t0|0\t1\n");
/// # Ok::<(), sikalumdo::Refusal>(())
/// ```
///
/// # Errors
///
/// Reading's refusal; 17 where QUAL is neither missing nor a whole number from 0 to 16,777,215; 18 where there are fewer
/// names than the facts say; then 13. A refusal writes nothing, so that after 13 a longer buffer may be lent.
pub fn vcf_line(
    s: &[u8],
    facts: &Facts,
    strings: Names<'_>,
    contigs: Names<'_>,
    buf: &mut [u8],
) -> Result<usize, Refusal> {
    ffi::vcf_line(s, facts, strings, contigs, buf).map(|length| length as usize)
}
