//! Fetching: where one value of a record stands, by kind and number.

use crate::descriptor::{single, value, Value};
use crate::facts::Facts;
use crate::fixed::ID_PLACE;
use crate::read::read;
use crate::refusal::{Refusal, NO_FIELD};
use crate::types::{ANY, INTEGER, TEXT};

/// The five kinds of value. ID and FILTER have number 0 only.
#[derive(Debug, Clone, Copy, PartialEq, Eq)]
pub enum Kind {
    Id,
    Allele,
    Filter,
    Info,
    Format,
}

/// A fetched value: its key (0 for ID, alleles and FILTER), its type code (0 for a bare 00), its descriptor's length
/// (for each person in FORMAT), and the places from its first element up to the byte after its last.
#[derive(Debug, Clone, Copy, PartialEq, Eq)]
pub struct Field {
    pub key: u32,
    pub code: u8,
    pub len: u32,
    pub first: u32,
    pub stop: u32,
}

impl Field {
    fn new(key: i32, value: Value) -> Field {
        Field { key: key as u32, code: value.code, len: value.len, first: value.first as u32, stop: value.stop as u32 }
    }
}

/// Fetches the value of a kind and a number from 0: reading's refusal first, then 16 where there is no such field.
pub fn fetch(s: &[u8], facts: &Facts, kind: Kind, number: u32) -> Result<Field, Refusal> {
    let site = read(s, facts)?;
    let count = match kind {
        Kind::Id | Kind::Filter => 1,
        Kind::Allele => site.alleles,
        Kind::Info => site.infos,
        Kind::Format => site.formats,
    };
    if number >= count {
        return Err(Refusal::of(NO_FIELD));
    }
    let block = &s[..site.border as usize];
    match kind {
        Kind::Id => text(block, 0),
        Kind::Allele => text(block, number + 1),
        Kind::Filter => filter(block, site.alleles),
        Kind::Info => keyed(block, site.first_info as usize, 1, number),
        Kind::Format => keyed(&s[..site.length as usize], site.border as usize, site.people, number),
    }
}

/// What fetching needs of the numbers that reading told: each as far as its field of a record goes, which is 16 bits for
/// alleles and for INFO fields, 8 for FORMAT fields. Fewer than reading tells are the numbers of no record.
struct Told {
    length: u64,
    border: u64,
    alleles: u16,
    infos: u16,
    formats: u8,
    people: u32,
}

impl Told {
    fn of(numbers: &[u64]) -> Option<Told> {
        let &[length, border, _, _, _, _, alleles, infos, formats, people, _, _, _, ..] = numbers else {
            return None;
        };
        let (alleles, infos, formats, people) = (alleles as u16, infos as u16, formats as u8, people as u32);
        Some(Told { length, border, alleles, infos, formats, people })
    }

    /// How many fields of a kind there are said to be.
    fn count(&self, kind: Kind) -> u32 {
        match kind {
            Kind::Id | Kind::Filter => 1,
            Kind::Allele => self.alleles.into(),
            Kind::Info => self.infos.into(),
            Kind::Format => self.formats.into(),
        }
    }

    /// The field of a number in its block, or what stands in its way.
    fn field(&self, s: &[u8], kind: Kind, number: u32) -> Result<Field, Refusal> {
        let (site, alleles) = (up_to(s, self.border), self.alleles.into());
        match kind {
            Kind::Id => text(site, 0),
            Kind::Allele => text(site, number + 1),
            Kind::Filter => filter(site, alleles),
            Kind::Info => keyed(site, filter(site, alleles)?.stop as usize, 1, number),
            Kind::Format => keyed(up_to(s, self.length), self.border as usize, self.people, number),
        }
    }
}

/// The bytes up to a place, as far as they are lent.
fn up_to(s: &[u8], end: u64) -> &[u8] {
    &s[..end.min(s.len() as u64) as usize]
}

/// Fetches from a record that was read, by the numbers that reading told, in its order. The record isn't judged again:
/// whatever the numbers are, the field is the one that stands whole in its block; 16 where none does, or none is said
/// to be there.
pub fn field_of(s: &[u8], numbers: &[u64], kind: Kind, number: u32) -> Result<Field, Refusal> {
    let site = Told::of(numbers).filter(|site| number < site.count(kind));
    site.and_then(|site| site.field(s, kind, number).ok()).ok_or(Refusal::of(NO_FIELD))
}

/// The text of a number in the site block: the ID is the first, the alleles follow.
fn text(block: &[u8], number: u32) -> Result<Field, Refusal> {
    let mut at = ID_PLACE;
    for _ in 0..number {
        at = value(block, at, TEXT, 1)?.stop;
    }
    Ok(Field::new(0, value(block, at, TEXT, 1)?))
}

/// FILTER stands after the last allele.
fn filter(block: &[u8], alleles: u32) -> Result<Field, Refusal> {
    let last = text(block, alleles)?;
    Ok(Field::new(0, value(block, last.stop as usize, INTEGER, 1)?))
}

/// The keyed value of a number, of `vectors` vectors, counted from the first key's place. Its elements aren't judged
/// again, nor whether GT's type is right.
pub(crate) fn keyed(block: &[u8], first: usize, vectors: u32, number: u32) -> Result<Field, Refusal> {
    let mut at = first;
    for _ in 0..number {
        at = value(block, single(block, at)?.stop, ANY, vectors)?.stop;
    }
    let key = single(block, at)?;
    Ok(Field::new(key.number, value(block, key.stop, ANY, vectors)?))
}
