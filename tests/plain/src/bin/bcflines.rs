//! The line program: hexadecimal records on standard input, after a first line of the four facts; for each a line
//! that says `ok` with its counts, `no` with the refusal, or `bad`.

use std::fmt::Write as _;
use std::io::{self, Read, Write};

use plain::{read, tally, Facts, Refusal, Site};

/// The most digits of a record's line.
const MOST_DIGITS: usize = 60_000;
/// The refusal of a tally of more than 64 alleles, whose record is accepted all the same.
const TOO_MANY_ALLELES: u32 = 15;

fn main() -> io::Result<()> {
    let mut input = Vec::new();
    io::stdin().read_to_end(&mut input)?;
    io::stdout().write_all(answer(&input).as_bytes())
}

fn answer(input: &[u8]) -> String {
    // A line feed ends a line, so after the last one there is a further line only if bytes follow.
    let mut lines = input.split_inclusive(|&byte| byte == b'\n').map(|line| line.strip_suffix(b"\n").unwrap_or(line));
    let Some(facts) = lines.next().and_then(facts) else {
        return "bad\n".to_string();
    };
    let mut output = String::new();
    for line in lines {
        match record(line) {
            Some(bytes) => answer_record(&bytes, &facts, &mut output),
            None => output.push_str("bad"),
        }
        output.push('\n');
    }
    output
}

/// The facts of a first line of 32 digits.
fn facts(line: &[u8]) -> Option<Facts> {
    let bytes = bytes(line).filter(|bytes| bytes.len() == 16)?;
    let mut words = bytes.as_chunks().0.iter().map(|&word| u32::from_be_bytes(word));
    let mut word = || words.next();
    Some(Facts { strings: word()?, contigs: word()?, people: word()?, gt: word()? })
}

/// The bytes of a record's line, unless it is of odd length, with another character, or too long.
fn record(line: &[u8]) -> Option<Vec<u8>> {
    if line.len() > MOST_DIGITS {
        return None;
    }
    bytes(line)
}

fn bytes(digits: &[u8]) -> Option<Vec<u8>> {
    let (pairs, []) = digits.as_chunks::<2>() else {
        return None;
    };
    pairs.iter().map(|&[high, low]| Some(digit(high)? << 4 | digit(low)?)).collect()
}

fn digit(byte: u8) -> Option<u8> {
    char::from(byte).to_digit(16).map(|digit| digit as u8)
}

/// Writes the answer to one record, without the line feed.
fn answer_record(bytes: &[u8], facts: &Facts, output: &mut String) {
    let tallied = tally(bytes, facts);
    let accepted = match tallied {
        Ok(tally) => Ok(tally.site),
        Err(Refusal { number: TOO_MANY_ALLELES, .. }) => read(bytes, facts),
        Err(refusal) => Err(refusal),
    };
    match accepted {
        Err(refusal) => write!(output, "no {} {}", refusal.number, refusal.place).expect("a string takes all"),
        Ok(site) if bytes.len() > site.length as usize => output.push_str("bad"),
        Ok(site) => {
            write_counts(&site, output);
            if let Ok(tally) = tallied {
                let calls = &tally.counts[..site.alleles as usize];
                for count in [tally.without, tally.missing].iter().chain(calls) {
                    write!(output, " {count}").expect("a string takes all");
                }
            }
        }
    }
}

fn write_counts(site: &Site, output: &mut String) {
    let Site { length, alleles, infos, formats, people, .. } = site;
    write!(output, "ok {length} {alleles} {infos} {formats} {people}").expect("a string takes all");
}
