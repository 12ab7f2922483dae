//! GT: the codes of genotypes, what each says, and the rule that its allele is one of the record's.

use crate::elements::{judge_codes, shown, Integer, END, MISSING};
use crate::refusal::Fault;

/// What one element of a GT value says.
#[derive(Debug, Clone, Copy, PartialEq, Eq)]
pub enum Call {
    Allele {
        allele: u32,
        phased: bool,
    },
    /// Code 0 or 1, or the missing mark, which has no phase.
    Missing {
        phased: bool,
    },
    /// An end of vector, so no allele at all.
    End,
}

/// What element `index` of a GT part of type `code` says. None past the last whole element, and for what no GT has:
/// a type other than 1, 2 and 3, or a negative number that is no mark.
pub fn call(part: &[u8], code: u8, index: usize) -> Option<Call> {
    if !matches!(code, 1..=3) {
        return None;
    }
    match shown(part, code, index)? as i32 {
        END => Some(Call::End),
        MISSING => Some(Call::Missing { phased: false }),
        number => {
            let number = u32::try_from(number).ok()?;
            let phased = number % 2 == 1;
            Some(match (number / 2).checked_sub(1) {
                Some(allele) => Call::Allele { allele, phased },
                None => Call::Missing { phased },
            })
        }
    }
}

/// The first fault in the element bytes of a GT value of type 1, 2 or 3; a bare 00 has none.
pub(crate) fn judge_bytes(bytes: &[u8], code: u8, len: usize, alleles: u32) -> Result<(), Fault> {
    match code {
        1 => judge_codes(bytes, len, |byte| byte as i8, wrong(alleles)),
        2 => judge_codes(bytes.as_chunks().0, len, i16::from_le_bytes, wrong(alleles)),
        _ => judge_codes(bytes.as_chunks().0, len, i32::from_le_bytes, wrong(alleles)),
    }
}

/// The first fault in the codes of a GT value given as numbers.
pub(crate) fn judge_numbers(codes: &[i32], len: usize, alleles: u32) -> Result<(), Fault> {
    judge_codes(codes, len, |code| code, wrong(alleles))
}

/// Whether a code is negative and not the missing mark, or its allele isn't below the allele count. The greatest
/// sound code is the phased one of the last allele, or all codes of a width that doesn't reach it.
fn wrong<E: Integer>(alleles: u32) -> impl Fn(E) -> bool + Copy {
    let greatest = E::at_most(2 * alleles + 1);
    move |code| (code > greatest) | ((code < E::from(0)) & !code.is_missing())
}
