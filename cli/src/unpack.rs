//! Unpacking by `bgzip -dc` or `bcftools view -Ou`, whichever is there.

use std::io::{self, ErrorKind, Read, Write};
use std::process::{Child, ChildStdin, ChildStdout, Command, Stdio};
use std::thread::{self, JoinHandle};

use crate::stop::{Outcome, Stop};

/// The empty block that ends a BGZF file: without it a file that was cut off between two blocks looks whole.
const LAST_BLOCK: [u8; 28] =
    [0x1F, 0x8B, 8, 4, 0, 0, 0, 0, 0, 0xFF, 6, 0, 0x42, 0x43, 2, 0, 0x1B, 0, 3, 0, 0, 0, 0, 0, 0, 0, 0, 0];
const CHUNK: usize = 1 << 16;

/// A tool at work, and the thread that feeds it.
pub struct Unpacker {
    child: Child,
    feeder: Option<JoinHandle<io::Result<Vec<u8>>>>,
    tool: &'static str,
    in_blocks: bool,
}

/// Starts the first of the two tools that is there.
fn started(name: &str, threads: usize) -> Outcome<(Child, &'static str)> {
    let threads = threads.to_string();
    let bgzip = ["-dc", "-@", &threads];
    let bcftools = ["view", "--no-version", "-Ou", "--threads", &threads, "-"];
    for (tool, words) in [("bgzip", &bgzip[..]), ("bcftools", &bcftools[..])] {
        let mut command = Command::new(tool);
        command.args(words).stdin(Stdio::piped()).stdout(Stdio::piped()).stderr(Stdio::null());
        match command.spawn() {
            Ok(child) => return Ok((child, tool)),
            Err(error) if error.kind() == ErrorKind::NotFound => {}
            Err(error) => return Err(Stop::machine(name, &format!("{tool} cannot be started"), &error)),
        }
    }
    Err(Stop::at(
        name,
        0,
        "it is packed, and neither bgzip nor bcftools is here to unpack it; expected an unpacked BCF",
    ))
}

/// Gives a tool all that there is, and answers its last bytes. A tool that stops taking tells why by its status.
fn feed(mut from: Box<dyn Read + Send>, mut to: ChildStdin) -> io::Result<Vec<u8>> {
    let (mut chunk, mut last) = (vec![0; CHUNK], Vec::new());
    loop {
        let count = crate::source::read_full(&mut *from, &mut chunk)?;
        let given = chunk.get(..count).unwrap_or_default();
        last.extend_from_slice(given);
        last.drain(..last.len().saturating_sub(LAST_BLOCK.len()));
        if given.is_empty() || to.write_all(given).is_err() {
            return Ok(last);
        }
    }
}

impl Unpacker {
    /// Starts a tool on these bytes, and gives what it unpacks.
    pub fn start(
        name: &str,
        from: Box<dyn Read + Send>,
        in_blocks: bool,
        threads: usize,
    ) -> Outcome<(Unpacker, ChildStdout)> {
        let (mut child, tool) = started(name, threads)?;
        let (Some(to), Some(bytes)) = (child.stdin.take(), child.stdout.take()) else {
            return Err(Stop::usage(format!("{name}: {tool} has no pipes")));
        };
        let feeder = thread::Builder::new()
            .spawn(move || feed(from, to))
            .map_err(|error| Stop::machine(name, "no thread can be started", &error))?;
        Ok((Unpacker { child, feeder: Some(feeder), tool, in_blocks }, bytes))
    }

    /// Asks, once everything was taken, whether the tool ended well and the file was whole.
    pub fn finish(mut self, name: &str, at: u64) -> Outcome<()> {
        let status = self.child.wait().map_err(|error| Stop::machine(name, self.tool, &error))?;
        if !status.success() {
            let words = format!("{} unpacks no more ({status}); expected a whole BGZF file", self.tool);
            return Err(Stop::at(name, at, words));
        }
        let fed = self.feeder.take().and_then(|feeder| feeder.join().ok());
        match fed {
            Some(Ok(last)) if self.in_blocks && last != LAST_BLOCK => {
                Err(Stop::at(name, at, "cut off; expected the empty block that ends a BGZF file"))
            }
            Some(Err(error)) => Err(Stop::machine(name, "cannot be read", &error)),
            _ => Ok(()),
        }
    }
}

/// A stop on the way leaves no tool running.
impl Drop for Unpacker {
    fn drop(&mut self) {
        // Both fail only where the tool has ended already.
        let _ = self.child.kill();
        let _ = self.child.wait();
    }
}
