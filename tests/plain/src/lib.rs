//! A plain reference of the BCF2 record rules of document 01: reading one record, fetching a value of it, walking
//! its INFO pairs, tallying its genotypes, choosing people, building a record and writing its VCF line. One module for
//! each thing the format names; nothing here is clever, so that it can be read beside the document.

mod allele;
mod build;
mod choose;
mod descriptor;
mod elements;
mod facts;
mod fetch;
mod filter;
mod fixed;
mod genotype;
mod line;
mod names;
mod read;
mod refusal;
mod tally;
mod tight;
mod types;
mod walker;

pub use build::{Builder, Turn};
pub use choose::choose;
pub use elements::shown;
pub use facts::Facts;
pub use fetch::{fetch, field_of, Field, Kind};
pub use genotype::{call, Call};
pub use line::vcf_line;
pub use names::Names;
pub use read::{read, Site};
pub use refusal::Refusal;
pub use tally::{tally, Tally};
pub use walker::{info_start, pair_at, Pair};
