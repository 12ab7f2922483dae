//! Elements of the five types: their marks, how they are shown, and the rule that no reserved value stands in a
//! vector and that after an end of vector only ends of vector follow.

use crate::refusal::{Fault, BAD_ELEMENT, BAD_GENOTYPE};
use crate::types::width;

/// Type 3's missing mark, which the missing mark of any integer width is shown as.
pub(crate) const MISSING: i32 = i32::MIN;
/// Type 3's end of vector, which the end of vector of any integer width is shown as.
pub(crate) const END: i32 = i32::MIN + 1;

/// An element at the width it is stored in, so that marks are compared there and never as widened numbers.
pub(crate) trait Element: Copy {
    fn is_end(self) -> bool;
    fn is_reserved(self) -> bool;
}

/// An element of type 1, 2 or 3.
pub(crate) trait Integer: Element + Ord + From<i8> {
    fn is_missing(self) -> bool;
    /// A number of 0 or more in this width, or the greatest of the width if it is above that.
    fn at_most(number: u32) -> Self;
    fn shown(self) -> i32;
}

macro_rules! integer {
    ($($form:ty),*) => {$(
        impl Element for $form {
            fn is_end(self) -> bool {
                self == <$form>::MIN + 1
            }
            fn is_reserved(self) -> bool {
                (<$form>::MIN + 2..=<$form>::MIN + 7).contains(&self)
            }
        }
        impl Integer for $form {
            fn is_missing(self) -> bool {
                self == <$form>::MIN
            }
            fn at_most(number: u32) -> Self {
                <$form>::try_from(number).unwrap_or(<$form>::MAX)
            }
            fn shown(self) -> i32 {
                if self.is_missing() {
                    MISSING
                } else if self.is_end() {
                    END
                } else {
                    i32::from(self)
                }
            }
        }
    )*};
}
integer!(i8, i16, i32);

/// The bits of a float, which never pass through arithmetic.
#[derive(Clone, Copy)]
pub(crate) struct Float(pub u32);

impl Element for Float {
    fn is_end(self) -> bool {
        self.0 == 0x7F80_0002
    }
    fn is_reserved(self) -> bool {
        (0x7F80_0003..=0x7F80_0007).contains(&self.0)
    }
}

/// A byte of text; a zero byte works as its end of vector.
#[derive(Clone, Copy)]
pub(crate) struct Text(pub u8);

impl Element for Text {
    fn is_end(self) -> bool {
        self.0 == 0
    }
    fn is_reserved(self) -> bool {
        false
    }
}

/// The 32 bits that element `index` of a fetched part of type `code` is shown by: integers as signed numbers with
/// type 3's marks, floats as their bits, text as its byte. None past the last whole element, and for an unused type or a
/// bare 00's, which has no elements.
pub fn shown(part: &[u8], code: u8, index: usize) -> Option<u32> {
    let width = width(code);
    if width == 0 {
        return None;
    }
    let first = index.checked_mul(width)?;
    let bytes = part.get(first..)?.get(..width)?;
    Some(match *bytes {
        [byte] if code == 1 => i8::shown(byte as i8) as u32,
        [byte] => u32::from(byte),
        [low, high] => i16::shown(i16::from_le_bytes([low, high])) as u32,
        _ => u32::from_le_bytes(bytes.try_into().ok()?),
    })
}

/// The shown numbers of a part of type 1, 2 or 3, in order.
pub(crate) fn numbers(part: &[u8], code: u8) -> impl Iterator<Item = i32> + '_ {
    (0..).map_while(move |index| shown(part, code, index)).map(|bits| bits as i32)
}

/// The first fault in the element bytes of vectors of `len` elements each, of one of the five types; a bare 00 has no
/// element, so none at fault.
pub(crate) fn judge_bytes(bytes: &[u8], code: u8, len: usize) -> Result<(), Fault> {
    match code {
        1 => judge(bytes, len, |byte| byte as i8),
        2 => judge(bytes.as_chunks().0, len, i16::from_le_bytes),
        3 => judge(bytes.as_chunks().0, len, i32::from_le_bytes),
        5 => judge(bytes.as_chunks().0, len, |bytes| Float(u32::from_le_bytes(bytes))),
        _ => judge(bytes, len, Text),
    }
}

/// The first fault of a list of vectors of `len` elements each, which `decode` takes out of their raw form.
pub(crate) fn judge<R: Copy, E: Element>(list: &[R], len: usize, decode: impl Fn(R) -> E + Copy) -> Result<(), Fault> {
    judge_codes(list, len, decode, |_| false)
}

/// Elements looked at together before any of them is judged by itself.
const BLOCK: usize = 1024;

/// As `judge`, with GT's rule: a number that is no mark and is `wrong` gives 10. Most blocks hold neither ends nor
/// anything wrong, and finding that out needs no branch for each element, so only the other blocks are gone through
/// vector by vector.
pub(crate) fn judge_codes<R: Copy, E: Element>(
    list: &[R],
    len: usize,
    decode: impl Fn(R) -> E + Copy,
    wrong: impl Fn(E) -> bool + Copy,
) -> Result<(), Fault> {
    if list.is_empty() {
        return Ok(());
    }
    let size = if list.len() <= BLOCK { list.len() } else { (BLOCK / len).max(1) * len };
    for (number, block) in list.chunks(size).enumerate() {
        if !has_special(block.iter().map(|raw| decode(*raw)), wrong) {
            continue;
        }
        for (vector, elements) in block.chunks(len).enumerate() {
            let elements = elements.iter().map(|raw| decode(*raw));
            if has_fault(elements.clone(), wrong) {
                return judge_vector(elements, wrong)
                    .map_err(|fault| Fault { index: number * size + vector * len + fault.index, ..fault });
            }
        }
    }
    Ok(())
}

/// Whether any element is an end of vector, reserved or wrong.
fn has_special<E: Element>(elements: impl Iterator<Item = E>, wrong: impl Fn(E) -> bool) -> bool {
    elements.fold(false, |found, element| found | element.is_end() | element.is_reserved() | wrong(element))
}

/// Whether one vector has a fault, again without a branch for each element.
fn has_fault<E: Element>(elements: impl Iterator<Item = E>, wrong: impl Fn(E) -> bool) -> bool {
    let (mut fault, mut ended) = (false, false);
    for element in elements {
        let end = element.is_end();
        fault |= !end & (ended | element.is_reserved() | wrong(element));
        // Before the first fault only an end follows an end, so the last element tells; afterwards it doesn't matter.
        ended = end;
    }
    fault
}

/// The first fault of one vector, by element 9 then 10.
fn judge_vector<E: Element>(elements: impl Iterator<Item = E>, wrong: impl Fn(E) -> bool) -> Result<(), Fault> {
    let mut ended = false;
    for (index, element) in elements.enumerate() {
        if element.is_end() {
            ended = true;
        } else if ended || element.is_reserved() {
            return Err(Fault { index, number: BAD_ELEMENT });
        } else if wrong(element) {
            return Err(Fault { index, number: BAD_GENOTYPE });
        }
    }
    Ok(())
}
