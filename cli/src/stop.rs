//! Why the program stops: one line, and the exit status that goes with it.

use std::io;

/// The exit status where something was refused or differs.
pub const DIFFERS: u8 = 1;
/// The exit status of wrong usage, and of a file that cannot be read or written.
pub const UNUSABLE: u8 = 2;

/// The line that says why there is no going on.
#[derive(Debug)]
pub struct Stop {
    /// The exit status.
    pub status: u8,
    /// The line, without the program's name.
    pub words: String,
}

/// What a step answers that may stop the program.
pub type Outcome<T> = Result<T, Stop>;

impl Stop {
    /// The command line is not one that the program takes.
    pub fn usage(words: impl Into<String>) -> Stop {
        Stop { status: UNUSABLE, words: words.into() }
    }

    /// The machine refused to open, read or write.
    pub fn machine(file: &str, doing: &str, error: &io::Error) -> Stop {
        Stop { status: UNUSABLE, words: format!("{file}: {doing}: {error}") }
    }

    /// The file is not what was expected, from a byte of it on.
    pub fn at(file: &str, byte: u64, words: impl AsRef<str>) -> Stop {
        Stop { status: UNUSABLE, words: format!("{file}: byte {byte}: {}", words.as_ref()) }
    }

    /// The data does not allow what was asked.
    pub fn refused(file: &str, words: impl AsRef<str>) -> Stop {
        Stop { status: DIFFERS, words: format!("{file}: {}", words.as_ref()) }
    }
}
