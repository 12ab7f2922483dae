//! Names that are lent for the strings or the contigs: one text, and where each name ends in it.

/// A list of names. Name `index` runs from the end before it (the first from 0) to its own, as far as the text goes; it
/// is nothing where the ends fall or meet.
#[derive(Debug, Clone, Copy, PartialEq, Eq)]
pub struct Names<'a> {
    pub text: &'a [u8],
    pub ends: &'a [u32],
}

impl<'a> Names<'a> {
    /// Whether there is a name for each entry of a dictionary of that size.
    pub(crate) fn cover(&self, size: u32) -> bool {
        self.ends.len() as u64 >= u64::from(size)
    }

    /// The name of a number, up to its first zero byte; nothing past the list.
    pub(crate) fn get(&self, index: usize) -> &'a [u8] {
        let end = |index: usize| self.ends.get(index).map_or(0, |&end| end as usize);
        let (start, stop) = (index.checked_sub(1).map_or(0, end), end(index).min(self.text.len()));
        printed(self.text.get(start..stop).unwrap_or_default())
    }
}

/// Text stops at its first zero byte.
pub(crate) fn printed(text: &[u8]) -> &[u8] {
    let stop = text.iter().position(|&byte| byte == 0).unwrap_or(text.len());
    &text[..stop]
}
