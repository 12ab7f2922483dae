//! A file cut at each record's two lengths, a batch at a time. No other byte of a record is looked at here.

use std::ops::Range;

use crate::source::Source;
use crate::stop::{Outcome, Stop};

/// The bytes of the two lengths at a record's start.
pub const LENGTHS: usize = 8;
/// The bytes of a batch for each thread.
const BATCH: usize = 1 << 20;
/// How much of a record is held. The library refuses a longer one by its lengths alone, so the rest is passed over.
const HELD: usize = (1 << 24) + LENGTHS;

/// A record of a file.
#[derive(Clone, Copy)]
pub struct Entry<'a> {
    /// Its number in the file, from 1.
    pub number: u64,
    /// Where it begins in the file, unpacked.
    pub at: u64,
    /// Its bytes.
    pub bytes: &'a [u8],
}

/// The records of a file from its header's end on.
pub struct Records {
    /// Where the bytes come from.
    pub source: Source,
    buffer: Vec<u8>,
    filled: usize,
    /// Where the first byte of the buffer stands in the file.
    start: u64,
    /// The records that are whole in the buffer and were not passed, each with its place.
    spans: Vec<Range<usize>>,
    passed: usize,
    /// Where the bytes after the last whole record begin.
    rest: usize,
    /// Bytes of an overlong record that are still in the source.
    skip: u64,
    number: u64,
    ended: bool,
}

/// How long a record is, by its two lengths; none where they are not all there.
fn length(bytes: &[u8]) -> Option<u64> {
    let &[a, b, c, d, e, f, g, h] = bytes.first_chunk::<LENGTHS>()?;
    let (shared, indiv) = (u32::from_le_bytes([a, b, c, d]), u32::from_le_bytes([e, f, g, h]));
    Some(LENGTHS as u64 + u64::from(shared) + u64::from(indiv))
}

/// The bytes of a record's site block, by the first of its two lengths.
pub fn site_block(bytes: &[u8]) -> Option<&[u8]> {
    let shared = u32::from_le_bytes(*bytes.first_chunk()?);
    bytes.get(LENGTHS..)?.get(..shared as usize)
}

impl Records {
    /// The records of a source that stands at the first of them.
    pub fn new(source: Source, threads: usize) -> Records {
        let (start, buffer) = (source.at(), vec![0; BATCH * threads]);
        let spans = Vec::new();
        Records { source, buffer, filled: 0, start, spans, passed: 0, rest: 0, skip: 0, number: 1, ended: false }
    }

    /// The records at hand; at least one, unless the file has no more.
    pub fn batch(&mut self) -> Outcome<Vec<Entry<'_>>> {
        self.first(usize::MAX, 1)
    }

    /// The first of the records at hand, so many at most; the file gives more where there are fewer than wanted, as far as
    /// there is room for them.
    pub fn first(&mut self, most: usize, wanted: usize) -> Outcome<Vec<Entry<'_>>> {
        if self.spans.len() < self.passed + wanted {
            self.more()?;
        }
        let left = self.spans.iter().skip(self.passed).zip(self.number..);
        let entry = |(span, number): (&Range<usize>, u64)| Entry {
            number,
            at: self.start + span.start as u64,
            bytes: self.buffer.get(span.clone()).unwrap_or_default(),
        };
        Ok(left.take(most).map(entry).collect())
    }

    /// Passes so many of the records at hand.
    pub fn pass(&mut self, count: usize) {
        self.passed += count;
        self.number += count as u64;
    }

    /// Lets go of what was passed and takes in more, until there is a record or the end.
    fn more(&mut self) -> Outcome<()> {
        if self.skip > 0 && self.passed < self.spans.len() {
            return Ok(());
        }
        self.let_go();
        self.skip_over()?;
        while !self.ended {
            self.make_room();
            self.take_in()?;
            self.cut();
            if !self.spans.is_empty() {
                break;
            }
        }
        self.cut_short()
    }

    fn let_go(&mut self) {
        let from = self.spans.get(self.passed).map_or(self.rest, |span| span.start);
        self.buffer.copy_within(from..self.filled, 0);
        self.filled -= from;
        self.start += from as u64;
        self.rest = 0;
        self.spans.clear();
        self.passed = 0;
        self.cut();
    }

    /// Passes over the rest of a record that is longer than what is held of any.
    fn skip_over(&mut self) -> Outcome<()> {
        while self.skip > 0 {
            let step = self.skip.min(self.buffer.len() as u64);
            let filled = self.source.fill(self.buffer.get_mut(..step as usize).unwrap_or_default())?;
            self.start += filled as u64;
            self.skip -= filled as u64;
            if (filled as u64) < step {
                return Err(self.short(self.skip));
            }
        }
        Ok(())
    }

    fn take_in(&mut self) -> Outcome<()> {
        if self.skip > 0 {
            return Ok(());
        }
        let room = self.buffer.get_mut(self.filled..).unwrap_or_default();
        let wanted = room.len();
        let count = self.source.fill(room)?;
        self.filled += count;
        self.ended = count < wanted;
        Ok(())
    }

    /// Finds the whole records in the buffer.
    fn cut(&mut self) {
        while let Some(size) = length(self.buffer.get(self.rest..self.filled).unwrap_or_default()) {
            let end = self.rest as u64 + size;
            if end > self.filled as u64 {
                break;
            }
            self.spans.push(self.rest..end as usize);
            self.rest = end as usize;
        }
    }

    /// Makes the buffer long enough for the record at its start, or holds what may be held of it.
    fn make_room(&mut self) {
        let begun = self.buffer.get(..self.filled).filter(|_| self.spans.is_empty());
        let Some(size) = begun.and_then(length) else { return };
        if size > HELD as u64 && self.filled >= HELD {
            self.spans.push(0..self.filled);
            self.rest = self.filled;
            self.skip = size - self.filled as u64;
        } else {
            let room = size.min(HELD as u64) as usize;
            self.buffer.resize(self.buffer.len().max(room), 0);
        }
    }

    /// At the end there is nothing left but whole records.
    fn cut_short(&mut self) -> Outcome<()> {
        if self.rest == self.filled || !self.spans.is_empty() {
            return Ok(());
        }
        let left = (self.filled - self.rest) as u64;
        let more = length(self.buffer.get(self.rest..self.filled).unwrap_or_default());
        Err(self.short(more.map_or(LENGTHS as u64, |size| size).saturating_sub(left)))
    }

    fn short(&self, more: u64) -> Stop {
        let words = format!("record {} is cut short; expected {more} bytes more, as its two lengths say", self.number);
        Stop::at(&self.source.name, self.source.at(), words)
    }
}
