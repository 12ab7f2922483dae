//! A record as its parts, and the bytes that hold them, with the places of what can be damaged. It is laid out here by
//! itself, so that neither library judges what it wrote.

use sikalumdo::Facts;

use crate::elements::{pack, tight_code};

/// The places of the fields after the two lengths, of four bytes each, and of the ID, which follows them.
pub const CHROM: usize = 8;
pub const POS: usize = 12;
pub const RLEN: usize = 16;
pub const QUAL: usize = 20;
/// Alleles and INFO fields.
pub const SITE_COUNTS: usize = 24;
/// FORMAT fields and people.
pub const GENOTYPE_COUNTS: usize = 28;
pub const ID: usize = 32;

/// A typed value: its elements as they are shown, in vectors of `len`. A bare 00 is one of code 0, without elements.
#[derive(Clone)]
pub struct Value {
    pub code: u8,
    pub len: u32,
    /// The type that a true length is written in, or 0 where the length stands in the descriptor.
    pub length_code: u8,
    pub shown: Vec<u32>,
}

/// A key and the type it is written in.
#[derive(Clone, Copy)]
pub struct Key {
    pub number: u32,
    pub code: u8,
}

#[derive(Clone)]
pub struct Record {
    pub facts: Facts,
    pub chrom: i32,
    pub pos: i32,
    pub rlen: i32,
    pub qual: u32,
    pub id: Value,
    pub alleles: Vec<Value>,
    pub filter: Value,
    pub infos: Vec<(Key, Value)>,
    pub formats: Vec<(Key, Value)>,
}

/// What stands at a place.
#[derive(Clone, Copy, PartialEq, Eq)]
pub enum What {
    Descriptor,
    Key,
    TrueLength,
    Elements,
}

/// A stretch of a record's bytes, of elements of a type.
#[derive(Clone, Copy)]
pub struct Spot {
    pub what: What,
    pub code: u8,
    pub first: usize,
    pub stop: usize,
}

/// A record's bytes.
pub struct Laid {
    pub bytes: Vec<u8>,
    pub spots: Vec<Spot>,
}

impl Laid {
    fn put(&mut self, what: What, code: u8, shown: &[u32]) {
        let first = self.bytes.len();
        pack(&mut self.bytes, code, shown);
        self.spots.push(Spot { what, code, first, stop: self.bytes.len() });
    }

    fn descriptor(&mut self, code: u8, length: u8) {
        self.put(What::Descriptor, 7, &[u32::from(length << 4 | code)]);
    }

    fn key(&mut self, key: &Key) {
        self.descriptor(key.code, 1);
        self.put(What::Key, key.code, &[key.number]);
    }

    fn value(&mut self, value: &Value) {
        if value.length_code == 0 {
            self.descriptor(value.code, value.len as u8);
        } else {
            self.descriptor(value.code, 15);
            self.descriptor(value.length_code, 1);
            self.put(What::TrueLength, value.length_code, &[value.len]);
        }
        self.put(What::Elements, value.code, &value.shown);
    }
}

impl Record {
    pub fn lay(&self) -> Laid {
        let fields = [
            (CHROM, self.chrom as u32),
            (POS, self.pos as u32),
            (RLEN, self.rlen as u32),
            (QUAL, self.qual),
            (SITE_COUNTS, (self.alleles.len() << 16 | self.infos.len()) as u32),
            (GENOTYPE_COUNTS, (self.formats.len() << 24) as u32 | self.facts.people & 0xFF_FFFF),
        ];
        let mut laid = Laid { bytes: vec![0; ID], spots: Vec::new() };
        fields.into_iter().for_each(|(at, word)| set_word(&mut laid.bytes, at, word));
        [&self.id].into_iter().chain(&self.alleles).chain([&self.filter]).for_each(|value| laid.value(value));
        for (key, value) in &self.infos {
            laid.key(key);
            laid.value(value);
        }
        let border = laid.bytes.len();
        for (key, value) in &self.formats {
            laid.key(key);
            laid.value(value);
        }
        set_lengths(&mut laid.bytes, border);
        laid
    }

    /// The same record at the narrowest widths, with 01 in place of each bare 00.
    pub fn tight(&self) -> Record {
        let mut tight = self.clone();
        tight.id.tighten();
        tight.alleles.iter_mut().for_each(Value::tighten);
        tight.filter.tighten();
        for (key, value) in tight.infos.iter_mut().chain(&mut tight.formats) {
            key.code = tight_code(&[key.number]);
            value.tighten();
        }
        tight
    }
}

impl Value {
    /// A descriptor 00 and nothing else, for a FILTER, INFO or FORMAT value that has nothing.
    pub fn bare() -> Value {
        Value { code: 0, len: 0, length_code: 0, shown: Vec::new() }
    }

    fn tighten(&mut self) {
        // A bare 00 shows no integers, as 01 does.
        if self.code <= 3 {
            self.code = tight_code(&self.shown);
        }
        if self.length_code != 0 {
            self.length_code = tight_code(&[self.len]);
        }
    }
}

/// Writes a word, if it is all there.
pub fn set_word(bytes: &mut [u8], at: usize, word: u32) {
    if let Some(four) = bytes.get_mut(at..at + 4) {
        four.copy_from_slice(&word.to_le_bytes());
    }
}

/// Writes the lengths of the two blocks, the first of which ends at `border`.
pub fn set_lengths(bytes: &mut [u8], border: usize) {
    let l_indiv = (bytes.len() - border) as u32;
    bytes[..4].copy_from_slice(&(border as u32 - 8).to_le_bytes());
    bytes[4..8].copy_from_slice(&l_indiv.to_le_bytes());
}
