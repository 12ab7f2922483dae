//! Tight writing: values at the narrowest width that holds them, with keys and true lengths likewise. A value of no
//! elements is 01, 05 or 07 by its form; a bare 00 is read and never written.

use crate::elements::{judge, Float, Text, END};
use crate::refusal::Fault;
use crate::types::width;

/// A value as it is given to the builder.
#[derive(Clone, Copy)]
pub(crate) enum Values<'a> {
    /// Signed numbers with type 3's marks.
    Integers(&'a [i32]),
    /// Float bits.
    Floats(&'a [u32]),
    Text(&'a [u8]),
}

impl Values<'_> {
    pub fn len(&self) -> usize {
        match self {
            Values::Integers(numbers) => numbers.len(),
            Values::Floats(bits) => bits.len(),
            Values::Text(text) => text.len(),
        }
    }

    /// The type code that the value is written in.
    pub fn code(&self) -> u8 {
        match self {
            Values::Integers(numbers) => integer_code(numbers),
            Values::Floats(_) => 5,
            Values::Text(_) => 7,
        }
    }

    /// The first fault of the list as vectors of `len` elements each.
    pub fn judge(&self, len: usize) -> Result<(), Fault> {
        match self {
            Values::Integers(numbers) => judge(numbers, len, |number| number),
            Values::Floats(bits) => judge(bits, len, Float),
            Values::Text(text) => judge(text, len, Text),
        }
    }

    /// Writes the elements in the type of `code`, which they fit; they fill `out`.
    pub fn write(&self, code: u8, out: &mut [u8]) {
        match self {
            Values::Integers(numbers) => write_integers(numbers, code, out),
            Values::Floats(bits) => write_words(bits.iter().copied(), out),
            Values::Text(text) => out.copy_from_slice(text),
        }
    }
}

/// The type that the widest element takes which is no mark; with marks only, or none, type 1.
fn integer_code(numbers: &[i32]) -> u8 {
    let (mut least, mut most) = (0, 0);
    for &number in numbers {
        let number = if number <= END { 0 } else { number };
        least = least.min(number);
        most = most.max(number);
    }
    if least >= -120 && most <= 127 {
        1
    } else if least >= -32760 && most <= 32767 {
        2
    } else {
        3
    }
}

/// The marks of type 3 become those of the width: its least number and the next.
fn write_integers(numbers: &[i32], code: u8, out: &mut [u8]) {
    match code {
        1 => {
            for (slot, &number) in out.iter_mut().zip(numbers) {
                *slot = if number <= END { 0x80 | number as u8 } else { number as u8 };
            }
        }
        2 => {
            for (slot, &number) in out.as_chunks_mut().0.iter_mut().zip(numbers) {
                *slot = if number <= END { 0x8000 | number as u16 } else { number as u16 }.to_le_bytes();
            }
        }
        _ => write_words(numbers.iter().map(|&number| number as u32), out),
    }
}

fn write_words(words: impl Iterator<Item = u32>, out: &mut [u8]) {
    for (slot, word) in out.as_chunks_mut().0.iter_mut().zip(words) {
        *slot = word.to_le_bytes();
    }
}

/// What stands before a value's elements: a key of at most five bytes, if it has one, and a descriptor with a true
/// length of at most six.
#[derive(Default)]
pub(crate) struct Head {
    bytes: [u8; 11],
    len: usize,
}

impl Head {
    pub fn new(key: Option<i32>, code: u8, len: usize) -> Head {
        let mut head = Head::default();
        if let Some(key) = key {
            head.push_single(key);
        }
        match u8::try_from(len) {
            Ok(short @ 0..=14) => head.push(&[short << 4 | code]),
            _ => {
                head.push(&[0xF0 | code]);
                // A length past type 3 is of a record that is refused as too long; its head counts all the same.
                head.push_single(i32::try_from(len).unwrap_or(i32::MAX));
            }
        }
        head
    }

    pub fn bytes(&self) -> &[u8] {
        &self.bytes[..self.len]
    }

    /// One integer with a descriptor of its own.
    fn push_single(&mut self, number: i32) {
        let code = integer_code(&[number]);
        self.push(&[0x10 | code]);
        self.push(&number.to_le_bytes()[..width(code)]);
    }

    fn push(&mut self, bytes: &[u8]) {
        self.bytes[self.len..self.len + bytes.len()].copy_from_slice(bytes);
        self.len += bytes.len();
    }
}
