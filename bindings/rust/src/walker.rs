//! The walker over a record's INFO pairs.

use std::iter::FusedIterator;

use crate::{ffi, Facts, Refusal};

/// An INFO pair: a key, and its value as fetching gives it.
#[derive(Debug, Clone, Copy, PartialEq, Eq)]
pub struct Pair<'a> {
    /// The value's element bytes, that very part of the record.
    pub elements: &'a [u8],
    /// The key as 32 bits. It isn't judged again, so in a record that was not read it may be any number.
    pub key: u32,
    /// The value's type: 1, 2 or 3 for integers, 5 for floats, 7 for text; 0 for a bare 00, a missing value.
    pub code: u8,
    /// The value's length.
    pub len: u32,
    /// The place of the value's first element, or just after its descriptor for length 0.
    pub place: u32,
    /// The place of the next pair.
    pub next: u32,
}

/// Holds a lent record and the place of the next INFO pair, and yields the pairs in order. After the end it goes on
/// saying end.
#[derive(Debug, Clone)]
pub struct Pairs<'a> {
    record: &'a [u8],
    at: usize,
}

impl<'a> Pairs<'a> {
    /// A walker of a record that was read, at a place.
    pub(crate) fn at(record: &'a [u8], at: usize) -> Pairs<'a> {
        Pairs { record, at }
    }
}

/// Opens a walker at the record's first INFO pair.
///
/// ```no_run
/// # let (record, facts) = (Vec::new(), sikalumdo::Facts { strings: 4, contigs: 1, people: 2, gt: 3 });
/// for pair in sikalumdo::pairs(&record, &facts)? {
///     println!("key {} of type {}, length {}", pair.key, pair.code, pair.len);
/// }
/// # Ok::<(), sikalumdo::Refusal>(())
/// ```
///
/// # Errors
///
/// Reading's refusal.
pub fn pairs<'a>(s: &'a [u8], facts: &Facts) -> Result<Pairs<'a>, Refusal> {
    Ok(Pairs::at(s, ffi::first_pair(s, facts)? as usize))
}

/// The pair at a place, or `None`, the end, where no whole pair fits there before the end of the site block, or that
/// block isn't all lent. The record may be any bytes, the place any number; neither key nor elements are judged.
pub fn pair_at(s: &[u8], at: usize) -> Option<Pair<'_>> {
    let (bytes, [key, code, len, place, next]) = ffi::pair(s, at).ok()?;
    Some(Pair {
        elements: &s[place as usize..][..bytes as usize],
        key: key as u32,
        code: code as u8,
        len: len as u32,
        place: place as u32,
        next: next as u32,
    })
}

impl<'a> Iterator for Pairs<'a> {
    type Item = Pair<'a>;

    fn next(&mut self) -> Option<Pair<'a>> {
        let pair = pair_at(self.record, self.at)?;
        self.at = pair.next as usize;
        Some(pair)
    }
}

/// At the end the place stays, and so does the answer.
impl FusedIterator for Pairs<'_> {}
