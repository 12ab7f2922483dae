//! The command line.

use crate::help::Command;
use crate::stop::{Outcome, Stop};

const MOST_THREADS: usize = 256;

/// Whose names a list has.
#[derive(Debug, Clone, PartialEq, Eq)]
pub enum List {
    /// Those who leave.
    Without(String),
    /// Those who stay.
    Only(String),
}

/// What was asked.
#[derive(Default)]
pub struct Asked {
    files: Vec<String>,
    /// Who leaves or stays.
    pub list: Option<List>,
    /// Where the release, or the text, goes.
    pub output: Option<String>,
    /// Whether the release is packed.
    pub packed: bool,
    /// Whether records that are refused are left out of the release.
    pub leave_out_refused: bool,
    /// Whether an empty list of names is meant.
    pub nobody: bool,
    /// Whether the totals alone are wanted.
    pub summary: bool,
    /// Whether the report is for machines.
    pub json: bool,
    /// Whether to say only what is wrong.
    pub quiet: bool,
    /// How many threads work at once.
    pub threads: usize,
    /// Whether the help is wanted.
    pub help: bool,
}

/// The next word, which an option needs.
fn value(option: &str, words: &mut std::slice::Iter<String>) -> Outcome<String> {
    words.next().cloned().ok_or_else(|| Stop::usage(format!("{option} needs a value; see -h")))
}

fn threads(word: &str) -> Outcome<usize> {
    let number = word.parse().ok().filter(|number| (1..=MOST_THREADS).contains(number));
    number.ok_or_else(|| Stop::usage(format!("--threads {word}; expected a number from 1 to {MOST_THREADS}")))
}

impl Asked {
    /// Takes the words after the command's name.
    pub fn parse(command: &Command, words: &[String]) -> Outcome<Asked> {
        let mut asked = Asked { threads: 1, ..Asked::default() };
        let mut words = words.iter();
        while let Some(word) = words.next() {
            match word.strip_prefix('-') {
                None | Some("") => asked.files.push(word.clone()),
                Some("h" | "-help") => asked.help = true,
                Some(_) if !command.options.contains(&word.as_str()) => {
                    return Err(Stop::usage(format!("{} has no option {word}; see sikalumdo {0} -h", command.name)));
                }
                Some(_) => asked.option(word, &mut words)?,
            }
        }
        if !asked.help {
            asked.judge(command)?;
        }
        Ok(asked)
    }

    fn option(&mut self, option: &str, words: &mut std::slice::Iter<String>) -> Outcome<()> {
        match option {
            "--summary" => self.summary = true,
            "--json" => self.json = true,
            "--quiet" => self.quiet = true,
            "--nobody" => self.nobody = true,
            "--leave-out-refused" => self.leave_out_refused = true,
            "--threads" => self.threads = threads(&value(option, words)?)?,
            "-o" => self.output = Some(value(option, words)?),
            "-O" => {
                self.packed = match value(option, words)?.as_str() {
                    "b" => true,
                    "u" => false,
                    other => return Err(Stop::usage(format!("-O {other}; expected b or u"))),
                }
            }
            _ => {
                let path = value(option, words)?;
                let list = if option == "--only" { List::Only(path) } else { List::Without(path) };
                if self.list.replace(list).is_some() {
                    return Err(Stop::usage("two lists of names; expected one of --without and --only"));
                }
            }
        }
        Ok(())
    }

    /// Asks whether everything that the command needs is there.
    fn judge(&self, command: &Command) -> Outcome<()> {
        let usage = |words: &str| Err(Stop::usage(format!("{words}; see sikalumdo {} -h", command.name)));
        if self.files.len() != command.files {
            return usage(&format!("{} files are named; expected {}", self.files.len(), command.files));
        }
        if command.options.contains(&"--only") && self.list.is_none() {
            return usage("no list of names; expected --without NAMES or --only NAMES");
        }
        // Text goes to standard output unless it is told otherwise; a release has to have a place.
        if command.name == "cut" && self.output.is_none() {
            return usage("no release is named; expected -o RELEASE");
        }
        let from_list = match &self.list {
            Some(List::Without(path) | List::Only(path)) if path == "-" => 1,
            _ => 0,
        };
        if self.files.iter().filter(|file| *file == "-").count() + from_list > 1 {
            return usage("standard input can be only one of the files");
        }
        Ok(())
    }

    /// A file that was named, from 0; `judge` has counted them.
    pub fn file(&self, number: usize) -> &str {
        self.files.get(number).map_or("", String::as_str)
    }
}
