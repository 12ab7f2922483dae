//! `sikalumdo`: BCF files checked, tallied, cut to some people, printed as VCF text, and a release audited. What a record
//! may be is for the proved library to say; this program knows the header's names and cuts the file into records.

mod args;
mod audit;
mod check;
mod checksum;
mod compare;
mod cut;
mod differences;
mod explain;
mod header;
mod headers;
mod help;
mod leavers;
mod names;
mod output;
mod people;
mod place;
mod progress;
mod records;
mod recount;
mod release;
mod report;
mod shifts;
mod source;
mod stop;
mod tally;
mod totals;
mod unpack;
mod vcf;
mod walk;
mod work;

use std::process::ExitCode;

use args::Asked;
use help::{COMMANDS, PROGRAM};
use output::Output;
use stop::{Outcome, Stop};

/// The commands, as messages name them.
const EXPECTED: &str = "check, tally, cut, audit or vcf";

/// Does what the words ask, and answers the exit status.
fn run(words: &[String]) -> Outcome<u8> {
    let Some((name, rest)) = words.split_first() else {
        return Err(Stop::usage(format!("no command; expected {EXPECTED}; see sikalumdo -h")));
    };
    if name == "-h" || name == "--help" {
        Output::standard()?.put(PROGRAM.as_bytes())?;
        return Ok(0);
    }
    if name == "--version" {
        Output::standard()?.put(concat!("sikalumdo ", env!("CARGO_PKG_VERSION"), "\n").as_bytes())?;
        return Ok(0);
    }
    let Some(command) = COMMANDS.iter().find(|command| command.name == name) else {
        return Err(Stop::usage(format!("no command '{name}'; expected {EXPECTED}; see sikalumdo -h")));
    };
    let asked = Asked::parse(command, rest)?;
    if asked.help {
        Output::standard()?.put(command.help.as_bytes())?;
        return Ok(0);
    }
    match command.name {
        "check" => check::check(&asked),
        "cut" => cut::cut(&asked),
        "audit" => audit::audit(&asked),
        "vcf" => vcf::vcf(&asked),
        _ => tally::tally(&asked),
    }
}

fn main() -> ExitCode {
    let words: Vec<String> = std::env::args_os().skip(1).map(|word| word.to_string_lossy().into_owned()).collect();
    match run(&words) {
        Ok(status) => ExitCode::from(status),
        Err(stop) => {
            // Where nobody hears it, the exit status still says it.
            let _ = output::say(&format!("sikalumdo: {}\n", stop.words));
            ExitCode::from(stop.status)
        }
    }
}
