//! The walker over INFO pairs: it looks at nothing but the bytes at its place, so it is safe on a record that was
//! not read.

use crate::descriptor::{single, value};
use crate::facts::Facts;
use crate::fixed::l_shared;
use crate::read::read;
use crate::refusal::Refusal;
use crate::types::ANY;

/// One INFO pair: its key as it is shown, its value as fetching gives it; `stop` is the next pair's place.
#[derive(Debug, Clone, Copy, PartialEq, Eq)]
pub struct Pair {
    pub key: u32,
    pub code: u8,
    pub len: u32,
    pub first: u32,
    pub stop: u32,
}

/// Opening: the place of an accepted record's first INFO pair, or reading's refusal.
pub fn info_start(s: &[u8], facts: &Facts) -> Result<u32, Refusal> {
    read(s, facts).map(|site| site.first_info)
}

/// The pair at a place, or None for the end: where no whole pair fits there before the end of the site block, or
/// that block isn't all lent. Neither the key nor the elements are judged.
pub fn pair_at(s: &[u8], at: usize) -> Option<Pair> {
    let border = usize::try_from(8 + u64::from(l_shared(s)?)).ok()?;
    let site = s.get(..border)?;
    let key = single(site, at).ok()?;
    let info = value(site, key.stop, ANY, 1).ok()?;
    Some(Pair {
        key: key.number as u32,
        code: info.code,
        len: info.len,
        first: u32::try_from(info.first).ok()?,
        stop: u32::try_from(info.stop).ok()?,
    })
}
