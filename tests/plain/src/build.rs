//! Building: a record made turn by turn in a lent buffer, from begin to end.
//!
//! Document 01 has a turn answer the new state. Here the builder is the state and each turn changes it in place, so a
//! turn answers the length of the record so far, and the state's other numbers are asked for by name.

use crate::allele;
use crate::facts::Facts;
use crate::filter;
use crate::fixed::{contig_is_sound, pos_is_sound, qual_is_sound, rlen_is_sound};
use crate::fixed::{genotype_counts, put_word, site_counts, MOST_BYTES, MOST_FORMATS, MOST_IN_SITE, MOST_PEOPLE};
use crate::fixed::{CONTIG, GENOTYPE_COUNTS, ID_PLACE, L_INDIV, L_SHARED, POS, QUAL, RLEN, SITE_COUNTS};
use crate::genotype;
use crate::refusal::{Fault, Refusal, FIXED_FIELD, NO_ROOM, OUTSIDE_DICTIONARY, OUT_OF_ORDER, REPEATED};
use crate::refusal::{TOO_LONG, WRONG_LENGTH, WRONG_TYPE};
use crate::tight::{Head, Values};
use crate::types::width;

/// The last turn that was taken.
#[derive(Debug, Clone, Copy, PartialEq, Eq)]
pub enum Turn {
    Fresh,
    Begun,
    Id,
    Allele,
    Filter,
    Info,
    Format,
    Ended,
}

/// A builder's state: the facts given at begin, the last turn, and what has been written so far. A refused turn keeps
/// it, and the buffer, as they were.
#[derive(Debug, Clone)]
pub struct Builder {
    facts: Facts,
    turn: Turn,
    length: u32,
    /// Where the genotype block starts, or will start.
    border: u32,
    alleles: u32,
    infos: u32,
    /// The keys of the FORMAT fields.
    keys: Vec<i32>,
}

/// All of building's refusals have place 0.
fn refuse<T>(number: u32) -> Result<T, Refusal> {
    Err(Refusal::of(number))
}

fn unplaced(fault: Fault) -> Refusal {
    Refusal::of(fault.number)
}

impl Builder {
    pub fn fresh() -> Builder {
        Builder {
            facts: Facts { strings: 0, contigs: 0, people: 0, gt: 0 },
            turn: Turn::Fresh,
            length: 0,
            border: 0,
            alleles: 0,
            infos: 0,
            keys: Vec::new(),
        }
    }

    pub fn turn(&self) -> Turn {
        self.turn
    }

    pub fn alleles(&self) -> u32 {
        self.alleles
    }

    pub fn infos(&self) -> u32 {
        self.infos
    }

    pub fn formats(&self) -> u32 {
        self.keys.len() as u32
    }

    /// Writes the first 32 bytes, with both block lengths and both count fields 0. The facts hold for all turns; a
    /// count of people that no record can hold is refused here, where it is first known.
    pub fn begin(
        &mut self,
        buf: &mut [u8],
        facts: Facts,
        contig: i32,
        pos: i32,
        rlen: i32,
        qual_bits: u32,
    ) -> Result<u32, Refusal> {
        self.after(&[Turn::Fresh])?;
        let fields_are_sound =
            contig_is_sound(contig, &facts) && pos_is_sound(pos) && rlen_is_sound(rlen) && qual_is_sound(qual_bits);
        if !fields_are_sound || facts.people > MOST_PEOPLE {
            return refuse(FIXED_FIELD);
        }
        let head = buf.get_mut(..ID_PLACE).ok_or(Refusal::of(NO_ROOM))?;
        head.fill(0);
        for (at, word) in [(CONTIG, contig as u32), (POS, pos as u32), (RLEN, rlen as u32), (QUAL, qual_bits)] {
            put_word(head, at, word);
        }
        self.facts = facts;
        Ok(self.taken(Turn::Begun, ID_PLACE as u32))
    }

    pub fn id(&mut self, buf: &mut [u8], text: &[u8]) -> Result<u32, Refusal> {
        self.after(&[Turn::Begun])?;
        let values = Values::Text(text);
        values.judge(text.len()).map_err(unplaced)?;
        let length = self.append(buf, None, values, text.len())?;
        Ok(self.taken(Turn::Id, length))
    }

    /// Appends an allele, REF first.
    pub fn allele(&mut self, buf: &mut [u8], text: &[u8]) -> Result<u32, Refusal> {
        self.after(&[Turn::Id, Turn::Allele])?;
        if self.alleles == MOST_IN_SITE {
            return refuse(FIXED_FIELD);
        }
        if text.is_empty() {
            return refuse(WRONG_LENGTH);
        }
        allele::judge(text).map_err(unplaced)?;
        let length = self.append(buf, None, Values::Text(text), text.len())?;
        self.alleles += 1;
        Ok(self.taken(Turn::Allele, length))
    }

    pub fn filter(&mut self, buf: &mut [u8], offsets: &[i32]) -> Result<u32, Refusal> {
        self.after(&[Turn::Allele])?;
        filter::judge(offsets.iter().copied(), &self.facts).map_err(unplaced)?;
        let length = self.append(buf, None, Values::Integers(offsets), offsets.len())?;
        Ok(self.taken(Turn::Filter, length))
    }

    pub fn info_integers(&mut self, buf: &mut [u8], key: i32, values: &[i32]) -> Result<u32, Refusal> {
        self.info(buf, key, Values::Integers(values))
    }

    pub fn info_floats(&mut self, buf: &mut [u8], key: i32, bits: &[u32]) -> Result<u32, Refusal> {
        self.info(buf, key, Values::Floats(bits))
    }

    pub fn info_text(&mut self, buf: &mut [u8], key: i32, text: &[u8]) -> Result<u32, Refusal> {
        self.info(buf, key, Values::Text(text))
    }

    pub fn format_integers(&mut self, buf: &mut [u8], key: i32, len: u32, values: &[i32]) -> Result<u32, Refusal> {
        self.format(buf, key, len, Values::Integers(values))
    }

    pub fn format_floats(&mut self, buf: &mut [u8], key: i32, len: u32, bits: &[u32]) -> Result<u32, Refusal> {
        self.format(buf, key, len, Values::Floats(bits))
    }

    pub fn format_text(&mut self, buf: &mut [u8], key: i32, len: u32, text: &[u8]) -> Result<u32, Refusal> {
        self.format(buf, key, len, Values::Text(text))
    }

    /// Fills in the block lengths and the counts, and nothing else: the buffer has to reach the end of the last of
    /// them, the count of FORMAT fields and people.
    pub fn end(&mut self, buf: &mut [u8]) -> Result<u32, Refusal> {
        self.after(&[Turn::Filter, Turn::Info, Turn::Format])?;
        let head = buf.get_mut(..GENOTYPE_COUNTS + 4).ok_or(Refusal::of(NO_ROOM))?;
        put_word(head, L_SHARED, self.border - 8);
        put_word(head, L_INDIV, self.length - self.border);
        put_word(head, SITE_COUNTS, site_counts(self.alleles, self.infos));
        put_word(head, GENOTYPE_COUNTS, genotype_counts(self.formats(), self.facts.people));
        self.turn = Turn::Ended;
        Ok(self.length)
    }

    fn info(&mut self, buf: &mut [u8], key: i32, values: Values) -> Result<u32, Refusal> {
        self.after(&[Turn::Filter, Turn::Info])?;
        if self.infos == MOST_IN_SITE {
            return refuse(FIXED_FIELD);
        }
        if !self.facts.in_dictionary(key) {
            return refuse(OUTSIDE_DICTIONARY);
        }
        values.judge(values.len()).map_err(unplaced)?;
        let length = self.append(buf, Some(key), values, values.len())?;
        self.infos += 1;
        Ok(self.taken(Turn::Info, length))
    }

    fn format(&mut self, buf: &mut [u8], key: i32, len: u32, values: Values) -> Result<u32, Refusal> {
        self.after(&[Turn::Filter, Turn::Info, Turn::Format])?;
        if self.facts.people == 0 || self.keys.len() == MOST_FORMATS {
            return refuse(FIXED_FIELD);
        }
        if !self.facts.in_dictionary(key) {
            return refuse(OUTSIDE_DICTIONARY);
        }
        if self.keys.contains(&key) {
            return refuse(REPEATED);
        }
        self.judge_format(key, len, values)?;
        let length = self.append(buf, Some(key), values, len as usize)?;
        self.keys.push(key);
        Ok(self.taken(Turn::Format, length))
    }

    /// The rules of a FORMAT value of a sound key: 6, 7, then 9 and 10 by element over all people in turn.
    fn judge_format(&self, key: i32, len: u32, values: Values) -> Result<(), Refusal> {
        let is_gt = self.facts.is_gt(key);
        if is_gt && !matches!(values, Values::Integers(_)) {
            return refuse(WRONG_TYPE);
        }
        if values.len() as u64 != u64::from(self.facts.people) * u64::from(len) {
            return refuse(WRONG_LENGTH);
        }
        match values {
            Values::Integers(codes) if is_gt => genotype::judge_numbers(codes, len as usize, self.alleles),
            _ => values.judge(len as usize),
        }
        .map_err(unplaced)
    }

    /// Appends a value of vectors of `len` elements after what is written, and gives the length with it; 2 then 13.
    fn append(&self, buf: &mut [u8], key: Option<i32>, values: Values, len: usize) -> Result<u32, Refusal> {
        let code = values.code();
        let head = Head::new(key, code, len);
        let first = self.length as usize;
        let elements = first + head.bytes().len();
        let stop = elements as u64 + values.len() as u64 * width(code) as u64;
        if stop > MOST_BYTES {
            return refuse(TOO_LONG);
        }
        let out = buf.get_mut(first..stop as usize).ok_or(Refusal::of(NO_ROOM))?;
        let (out_head, out_elements) = out.split_at_mut(elements - first);
        out_head.copy_from_slice(head.bytes());
        values.write(code, out_elements);
        Ok(stop as u32)
    }

    /// A turn is taken only after some of the turns.
    fn after(&self, turns: &[Turn]) -> Result<(), Refusal> {
        if turns.contains(&self.turn) {
            Ok(())
        } else {
            refuse(OUT_OF_ORDER)
        }
    }

    fn taken(&mut self, turn: Turn, length: u32) -> u32 {
        self.turn = turn;
        self.length = length;
        if turn != Turn::Format {
            self.border = length;
        }
        length
    }
}
