//! The four facts that a header gives: strings in the dictionary, contigs, people, and the dictionary offset of GT.

#[derive(Debug, Clone, Copy, PartialEq, Eq)]
pub struct Facts {
    pub strings: u32,
    pub contigs: u32,
    pub people: u32,
    /// An offset that no key meets (2^31 or more, for one) means that there is no GT.
    pub gt: u32,
}

impl Facts {
    /// Whether a key or filter is an offset below the dictionary size. Marks are negative, so never inside.
    pub(crate) fn in_dictionary(&self, offset: i32) -> bool {
        u32::try_from(offset).is_ok_and(|offset| offset < self.strings)
    }

    /// Whether a key of the dictionary is GT's.
    pub(crate) fn is_gt(&self, key: i32) -> bool {
        u32::try_from(key).is_ok_and(|key| key == self.gt)
    }
}
