//! Fetching: one value of a record by kind and number, and how its elements are shown.

use crate::{ffi, Facts, Refusal, Site};

/// A kind of value. Another number than those of the five is taken too: there is no field of that kind (16).
#[derive(Debug, Clone, Copy, PartialEq, Eq, Hash)]
pub struct Kind(pub u32);

impl Kind {
    /// The ID, which has number 0 only.
    pub const ID: Kind = Kind(0);
    /// An allele, by number; REF is number 0.
    pub const ALLELE: Kind = Kind(1);
    /// FILTER, which has number 0 only.
    pub const FILTER: Kind = Kind(2);
    /// An INFO value, by number.
    pub const INFO: Kind = Kind(3);
    /// A FORMAT value, by number, with all people's elements.
    pub const FORMAT: Kind = Kind(4);
}

/// A fetched value.
#[derive(Debug, Clone, Copy, PartialEq, Eq)]
pub struct Field<'a> {
    /// The element bytes, that very part of the record.
    pub elements: &'a [u8],
    /// The key of an INFO or FORMAT value as 32 bits; 0 for ID, alleles and FILTER.
    pub key: u32,
    /// The type: 1, 2 or 3 for integers, 5 for floats, 7 for text; 0 for a bare 00, a missing value without elements.
    pub code: u8,
    /// The descriptor's length; in FORMAT that for each person.
    pub len: u32,
    /// The place of the first element, or just after the descriptor for length 0.
    pub place: u32,
    /// The place after the last element.
    pub stop: u32,
}

impl<'a> Field<'a> {
    /// The field of `s` that the library told: the bytes of its part, and its five numbers.
    fn told(s: &'a [u8], (bytes, [key, code, len, place, stop]): (u32, [u64; 5])) -> Field<'a> {
        Field {
            elements: &s[place as usize..][..bytes as usize],
            key: key as u32,
            code: code as u8,
            len: len as u32,
            place: place as u32,
            stop: stop as u32,
        }
    }
}

/// Fetches the value of a kind and a number, from 0. The record is read each time; who wants more than one value reads
/// it once, as a [`Record`](crate::Record).
///
/// ```no_run
/// # let (record, facts) = (Vec::new(), sikalumdo::Facts { strings: 4, contigs: 1, people: 2, gt: 3 });
/// let reference = sikalumdo::fetch(&record, &facts, sikalumdo::Kind::ALLELE, 0)?;
/// println!("REF {}", reference.elements.escape_ascii());
/// # Ok::<(), sikalumdo::Refusal>(())
/// ```
///
/// # Errors
///
/// Reading's refusal, then 16.
pub fn fetch<'a>(s: &'a [u8], facts: &Facts, kind: Kind, number: u32) -> Result<Field<'a>, Refusal> {
    Ok(Field::told(s, ffi::fetch(s, facts, kind, number)?))
}

/// Fetches from a record that was read, by the site that reading answered; the record isn't read or judged again. With
/// any other site the answer is still determined: the field that stands whole where its numbers lead, or 16.
///
/// # Errors
///
/// 16.
pub fn field_of<'a>(s: &'a [u8], site: &Site, kind: Kind, number: u32) -> Result<Field<'a>, Refusal> {
    // No place is past the site's length or border, so each is one of 32 bits, whatever the slice.
    Ok(Field::told(s, ffi::field_of(s, &site.numbers(), kind, number)?))
}

/// The 32 bits that an element of a fetched part is shown by: an integer as a signed number with the marks of type 3,
/// a float as its bits, text as its byte. `None` past the last whole element, and for an unused type or a bare 00's.
///
/// ```
/// assert_eq!(sikalumdo::shown(&[0x05, 0x80], 1, 0), Some(5));
/// assert_eq!(sikalumdo::shown(&[0x05, 0x80], 1, 1), Some(i32::MIN as u32));
/// assert_eq!(sikalumdo::shown(&[0x05, 0x80], 1, 2), None);
/// ```
pub fn shown(part: &[u8], code: u8, index: usize) -> Option<u32> {
    ffi::shown(part, code, index).ok()
}
