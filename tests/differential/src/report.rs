//! What was compared: how many calls of each function, what they answered, and each difference with the input that
//! shows it.

use std::collections::BTreeMap;
use std::fmt::{self, Arguments, Debug, Display, Write};

/// An answer of either library, its refusal as number and place.
pub type Answer<T> = Result<T, (u32, u32)>;

/// Differences that are printed in full; the others are only counted.
const PRINTED: u64 = 20;

/// Characters of one difference that are printed; a record of 30,000 bytes has room.
const MOST: usize = 70_000;

/// The greatest number that a refusal carries.
const NUMBERS: usize = 18;

/// A text that stops growing, so that an input of many megabytes isn't written out.
struct Short(String);

impl Write for Short {
    fn write_str(&mut self, text: &str) -> fmt::Result {
        if self.0.len() + text.len() > MOST {
            return Err(fmt::Error);
        }
        self.0.push_str(text);
        Ok(())
    }
}

/// What one function answered: how often it accepted, and how often it gave each refusal.
#[derive(Clone, Copy, Default)]
struct Answers {
    accepted: u64,
    refused: [u64; NUMBERS + 1],
}

pub struct Report {
    seed: u64,
    case: u64,
    records: u64,
    /// Accepted records with a bare 00 among their values.
    with_bare: u64,
    builds: u64,
    functions: BTreeMap<&'static str, Answers>,
    differences: u64,
}

impl Report {
    pub fn new(seed: u64) -> Report {
        Report { seed, case: 0, records: 0, with_bare: 0, builds: 0, functions: BTreeMap::new(), differences: 0 }
    }

    pub fn begin_case(&mut self, case: u64) {
        self.case = case;
    }

    pub fn count_record(&mut self, has_bare: bool) {
        self.records += 1;
        self.with_bare += u64::from(has_bare);
    }

    pub fn count_build(&mut self) {
        self.builds += 1;
    }

    pub fn inputs(&self) -> u64 {
        self.records + self.builds
    }

    pub fn differences(&self) -> u64 {
        self.differences
    }

    /// Compares what both libraries answered when a function was asked something about an input.
    pub fn compare<T: PartialEq + Debug>(
        &mut self,
        input: &dyn Display,
        function: &'static str,
        asked: Arguments,
        ours: &Answer<T>,
        plain: &Answer<T>,
    ) {
        let answers = self.functions.entry(function).or_default();
        match ours {
            Ok(_) => answers.accepted += 1,
            Err((number, _)) => answers.refused[(*number as usize).min(NUMBERS)] += 1,
        }
        if ours != plain {
            self.differ(input, format_args!("{function} {asked}: ours {ours:X?}, plain {plain:X?}"));
        }
    }

    /// Compares two lent buffers of one length over all their bytes.
    pub fn compare_bytes(&mut self, input: &dyn Display, asked: Arguments, ours: &[u8], plain: &[u8]) {
        if let Some(at) = ours.iter().zip(plain).position(|(ours, plain)| ours != plain) {
            let near = |bytes: &[u8]| bytes[at..].iter().take(24).copied().collect::<Vec<u8>>();
            let (ours, plain) = (near(ours), near(plain));
            self.differ(input, format_args!("{asked}: bytes from {at} on: ours {ours:02X?}, plain {plain:02X?}"));
        }
    }

    /// Notes something that has to hold of an input and doesn't.
    pub fn require(&mut self, input: &dyn Display, holds: bool, what: Arguments) {
        if !holds {
            self.differ(input, what);
        }
    }

    pub fn differ(&mut self, input: &dyn Display, what: Arguments) {
        self.differences += 1;
        if self.differences <= PRINTED {
            let mut text = Short(String::new());
            let is_whole = write!(text, "{what}\n  {input}").is_ok();
            let rest = if is_whole { "" } else { " .. (--case makes the rest again)" };
            println!("difference at seed {}, case {}: {}{rest}", self.seed, self.case, text.0);
        }
    }
}

impl Display for Report {
    fn fmt(&self, form: &mut fmt::Formatter<'_>) -> fmt::Result {
        writeln!(form, "{} inputs, {} records and {} builds", self.inputs(), self.records, self.builds)?;
        writeln!(form, "{} accepted records with a bare 00", self.with_bare)?;
        let mut reached = [false; NUMBERS + 1];
        for (function, answers) in &self.functions {
            let refused: u64 = answers.refused.iter().sum();
            let (calls, accepted) = (answers.accepted + refused, answers.accepted);
            write!(form, "{function}: {calls} calls, {accepted} accepted, refused")?;
            for (number, times) in answers.refused.iter().enumerate().filter(|(_, &times)| times > 0) {
                write!(form, " {number}:{times}")?;
                reached[number] = true;
            }
            writeln!(form, "{}", if refused == 0 { " none" } else { "" })?;
        }
        let unreached: Vec<usize> = (1..=NUMBERS).filter(|&number| !reached[number]).collect();
        writeln!(form, "refusals never reached: {unreached:?}")?;
        writeln!(form, "{} differences", self.differences)
    }
}
