//! Alleles: text of one or more bytes from 21 to 7E, so without zero bytes too.

use crate::refusal::{Fault, BAD_ELEMENT};

/// The first byte of an allele that isn't from 21 to 7E.
pub(crate) fn judge(text: &[u8]) -> Result<(), Fault> {
    match text.iter().position(|byte| !(0x21..=0x7E).contains(byte)) {
        Some(index) => Err(Fault { index, number: BAD_ELEMENT }),
        None => Ok(()),
    }
}
