//! How an input is handed to either library, and how it is printed.

use std::fmt::{self, Display};

use crate::damage::Input;
use crate::report::Answer;

impl Input {
    /// The facts in the plain library's form.
    pub fn plain_facts(&self) -> plain::Facts {
        plain_facts(&self.facts)
    }
}

pub fn plain_facts(facts: &sikalumdo::Facts) -> plain::Facts {
    plain::Facts { strings: facts.strings, contigs: facts.contigs, people: facts.people, gt: facts.gt }
}

/// Two lines as the line program takes them: the facts, then the bytes, in hexadecimal.
impl Display for Input {
    fn fmt(&self, form: &mut fmt::Formatter<'_>) -> fmt::Result {
        let sikalumdo::Facts { strings, contigs, people, gt } = self.facts;
        writeln!(form, "{strings:08X}{contigs:08X}{people:08X}{gt:08X}")?;
        write!(form, "  ")?;
        self.bytes.iter().try_for_each(|byte| write!(form, "{byte:02X}"))
    }
}

pub fn ours<T>(answer: Result<T, sikalumdo::Refusal>) -> Answer<T> {
    answer.map_err(|refusal| (refusal.number, refusal.place))
}

pub fn plains<T>(answer: Result<T, plain::Refusal>) -> Answer<T> {
    answer.map_err(|refusal| (refusal.number, refusal.place))
}

/// An answer that says nothing but that there is no such thing.
pub fn some<T>(answer: Option<T>) -> Answer<T> {
    answer.ok_or((16, 0))
}

/// A buffer to be lent, between bytes that are not: a pattern that differs from byte to byte, all of which is compared.
pub struct Lent {
    whole: Vec<u8>,
}

const GUARD: usize = 16;

impl Lent {
    pub fn new(room: usize, salt: u64) -> Lent {
        let byte = |index: usize| (index as u64).wrapping_mul(0x9D).wrapping_add(salt) as u8;
        Lent { whole: (0..room + 2 * GUARD).map(byte).collect() }
    }

    /// The first `room` bytes of what is to be lent.
    pub fn lend(&mut self, room: usize) -> &mut [u8] {
        &mut self.whole[GUARD..][..room]
    }

    /// The bytes lent, with those around them.
    pub fn whole(&self) -> &[u8] {
        &self.whole
    }

    pub fn bytes(&self) -> &[u8] {
        &self.whole[GUARD..self.whole.len() - GUARD]
    }
}
