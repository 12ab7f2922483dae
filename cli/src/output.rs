//! Where answers are written, with every error of the disk or the pipe heard.

use std::fs::File;
use std::io::{self, Write};
use std::os::fd::AsFd;

use crate::stop::{Outcome, Stop};

/// A file or standard output, and how many bytes it has got.
pub struct Output {
    name: String,
    to: Box<dyn Write>,
    at: u64,
}

impl Output {
    /// Standard output, past Rust's own buffer, which would hold back what fails.
    pub fn standard() -> Outcome<Output> {
        let file = io::stdout().as_fd().try_clone_to_owned().map(File::from);
        let file = file.map_err(|error| Stop::machine("standard output", "cannot be opened", &error))?;
        Ok(Output::new("standard output", Box::new(file)))
    }

    /// What is written to goes by this name.
    pub fn new(name: &str, to: Box<dyn Write>) -> Output {
        Output { name: name.to_string(), to, at: 0 }
    }

    /// Writes all of the bytes.
    pub fn put(&mut self, bytes: &[u8]) -> Outcome<()> {
        self.to.write_all(bytes).map_err(|error| {
            let doing = format!("byte {} cannot be written", self.at);
            match error.kind() {
                io::ErrorKind::BrokenPipe => Stop::at(&self.name, self.at, "closed early; expected to write on"),
                _ => Stop::machine(&self.name, &doing, &error),
            }
        })?;
        self.at += bytes.len() as u64;
        Ok(())
    }
}

/// Says something on standard error; what is left out has to be heard of.
pub fn say(words: &str) -> Outcome<()> {
    io::stderr()
        .write_all(words.as_bytes())
        .map_err(|error| Stop::machine("standard error", "cannot be written", &error))
}
