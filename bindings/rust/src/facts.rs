//! The four facts of a header that a record is judged by.

/// What a header says about its records, as four numbers.
#[derive(Debug, Clone, Copy, PartialEq, Eq, Hash)]
pub struct Facts {
    /// Strings in the dictionary: keys and filters are offsets below it.
    pub strings: u32,
    /// Contigs: CHROM is below it.
    pub contigs: u32,
    /// People in each record.
    pub people: u32,
    /// The dictionary offset of GT. One that no key meets, such as 4294967295, means that there is no GT.
    pub gt: u32,
}
