//! A record that was read once, and what is asked of it then.

use crate::{field_of, read, Facts, Field, Kind, Pairs, Refusal, Site};

/// A record that was read: its bytes, which stay lent, and what reading answered. Its values are fetched, and its INFO
/// pairs walked, without reading it again.
#[derive(Debug, Clone, Copy, PartialEq, Eq)]
pub struct Record<'a> {
    bytes: &'a [u8],
    site: Site,
}

impl<'a> Record<'a> {
    /// Reads the record at the start of `s`; bytes after it belong to the next one.
    ///
    /// ```
    /// # let facts = sikalumdo::Facts { strings: 4, contigs: 1, people: 2, gt: 3 };
    /// # let digits = "23000000070000000000000021380000010000000000E8410100020002000001071747174111001102110E11032102030481";
    /// # let byte = |at| u8::from_str_radix(&digits[at..at + 2], 16).unwrap();
    /// # let data: Vec<u8> = (0..digits.len()).step_by(2).map(byte).collect();
    /// let record = sikalumdo::Record::read(&data, &facts)?;
    /// assert_eq!(record.site().alleles, 2);
    /// assert_eq!(record.fetch(sikalumdo::Kind::ALLELE, 0)?.elements, b"G");
    /// # Ok::<(), sikalumdo::Refusal>(())
    /// ```
    ///
    /// # Errors
    ///
    /// Reading's refusal.
    pub fn read(s: &'a [u8], facts: &Facts) -> Result<Record<'a>, Refusal> {
        let site = read(s, facts)?;
        Ok(Record { bytes: &s[..site.length as usize], site })
    }

    /// The record's own bytes.
    pub fn bytes(&self) -> &'a [u8] {
        self.bytes
    }

    /// What reading answered.
    pub fn site(&self) -> &Site {
        &self.site
    }

    /// Fetches the value of a kind and a number, from 0, as [`fetch`](crate::fetch) does.
    ///
    /// # Errors
    ///
    /// 16.
    pub fn fetch(&self, kind: Kind, number: u32) -> Result<Field<'a>, Refusal> {
        field_of(self.bytes, &self.site, kind, number)
    }

    /// Opens a walker at the first INFO pair, as [`pairs`](crate::pairs) does. That pair stands where FILTER stops.
    pub fn pairs(&self) -> Pairs<'a> {
        // A record that was read has a FILTER; without one there would be no pair, and at the end there is none.
        let at = self.fetch(Kind::FILTER, 0).map_or(self.bytes.len(), |filter| filter.stop as usize);
        Pairs::at(self.bytes, at)
    }
}
