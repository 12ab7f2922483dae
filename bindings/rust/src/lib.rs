//! One uncompressed BCF2 record at a time: reading it, fetching a value, walking its INFO pairs, tallying its
//! genotypes, choosing people, writing its VCF line, and building a record. Who wants several values of a record reads
//! it once, as a [`Record`], and fetches from that.
//!
//! The work is done by a proved library; this crate only lends it slices and opens its answers, and holds no rule of
//! the format. The header stays outside: its facts come in as the four numbers of [`Facts`]. A call that isn't
//! accepted answers a [`Refusal`] and writes to no buffer.
//!
//! ```
//! let facts = sikalumdo::Facts { strings: 4, contigs: 1, people: 2, gt: 3 };
//! # let digits = "23000000070000000000000021380000010000000000E8410100020002000001071747174111001102110E11032102030481";
//! # let byte = |at| u8::from_str_radix(&digits[at..at + 2], 16).unwrap();
//! # let record: Vec<u8> = (0..digits.len()).step_by(2).map(byte).collect();
//! let tally = sikalumdo::tally(&record, &facts)?;
//! assert_eq!((tally.people, tally.missing, &tally.calls[..2]), (2, 0, &[2, 1][..]));
//! # Ok::<(), sikalumdo::Refusal>(())
//! ```

mod build;
mod choose;
mod facts;
mod fetch;
mod ffi;
mod line;
mod read;
mod record;
mod refusal;
mod tally;
mod walker;

pub use build::Builder;
pub use choose::choose;
pub use facts::Facts;
pub use fetch::{fetch, field_of, shown, Field, Kind};
pub use line::{vcf_line, NameList, Names};
pub use read::{read, vcf_pos, Site};
pub use record::Record;
pub use refusal::Refusal;
pub use tally::{tally, Tally};
pub use walker::{pair_at, pairs, Pair, Pairs};
