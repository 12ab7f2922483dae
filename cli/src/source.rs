//! A BCF file as a stream of plain bytes. What is packed goes through a tool that people have; block files stay with it.

use std::fs::File;
use std::io::{self, Cursor, Read};
use std::os::fd::AsFd;
use std::sync::atomic::{AtomicU64, Ordering};
use std::sync::Arc;

use crate::stop::{Outcome, Stop};
use crate::unpack::Unpacker;

/// How many bytes show whether a file is packed, and whether in blocks.
const START: usize = 18;

/// The bytes of a file, unpacked.
pub struct Source {
    /// The file's name as it was given, or `standard input`.
    pub name: String,
    /// The bytes of the file itself, where it has a size.
    pub size: Option<u64>,
    bytes: Box<dyn Read>,
    unpacker: Option<Unpacker>,
    taken: Arc<AtomicU64>,
    at: u64,
}

/// Counts what is read of the file itself, for the share that is done.
struct Counted {
    file: File,
    taken: Arc<AtomicU64>,
}

impl Read for Counted {
    fn read(&mut self, buffer: &mut [u8]) -> io::Result<usize> {
        let count = self.file.read(buffer)?;
        self.taken.fetch_add(count as u64, Ordering::Relaxed);
        Ok(count)
    }
}

/// The name that messages have for a path.
pub fn called(path: &str) -> String {
    if path == "-" { "standard input" } else { path }.to_string()
}

/// Standard input or a file, opened to be read.
pub fn opened(path: &str) -> io::Result<File> {
    if path == "-" {
        return io::stdin().as_fd().try_clone_to_owned().map(File::from);
    }
    let file = File::open(path)?;
    match file.metadata()?.is_dir() {
        true => Err(io::Error::other("it is a folder")),
        false => Ok(file),
    }
}

/// Reads until the buffer is full or the end has come, and tells how many bytes there were.
pub fn read_full(from: &mut dyn Read, buffer: &mut [u8]) -> io::Result<usize> {
    let mut filled = 0;
    while let Some(rest) = buffer.get_mut(filled..).filter(|rest| !rest.is_empty()) {
        match from.read(rest) {
            Ok(0) => break,
            Ok(count) => filled += count,
            Err(error) if error.kind() == io::ErrorKind::Interrupted => {}
            Err(error) => return Err(error),
        }
    }
    Ok(filled)
}

impl Source {
    /// Opens a file, `-` for standard input; one that is packed is unpacked with so many threads.
    pub fn open(path: &str, threads: usize) -> Outcome<Source> {
        let name = called(path);
        let fails = |error: io::Error| Stop::machine(&name, "cannot be opened", &error);
        let file = opened(path).map_err(fails)?;
        let size = file.metadata().ok().filter(|known| known.is_file()).map(|known| known.len());
        let taken = Arc::new(AtomicU64::new(0));
        let mut counted = Counted { file, taken: taken.clone() };
        let mut start = vec![0; START];
        let known = read_full(&mut counted, &mut start).map_err(|error| Stop::machine(&name, "byte 0", &error))?;
        start.truncate(known);
        let packed = start.starts_with(&[0x1F, 0x8B]);
        let in_blocks = start.get(12..14) == Some(b"BC");
        let whole = Cursor::new(start).chain(counted);
        let (bytes, unpacker): (Box<dyn Read>, _) = if packed {
            let (unpacker, bytes) = Unpacker::start(&name, Box::new(whole), in_blocks, threads)?;
            (Box::new(bytes), Some(unpacker))
        } else {
            (Box::new(whole), None)
        };
        Ok(Source { name, size, bytes, unpacker, taken, at: 0 })
    }

    /// Reads until the buffer is full or the end has come. At the end a tool that unpacks has to have ended well.
    pub fn fill(&mut self, buffer: &mut [u8]) -> Outcome<usize> {
        let filled = read_full(&mut *self.bytes, buffer)
            .map_err(|error| Stop::machine(&self.name, &format!("byte {} cannot be read", self.at), &error))?;
        self.at += filled as u64;
        if filled < buffer.len() {
            if let Some(unpacker) = self.unpacker.take() {
                unpacker.finish(&self.name, self.at)?;
            }
        }
        Ok(filled)
    }

    /// Where the next byte stands, counted in what is unpacked.
    pub fn at(&self) -> u64 {
        self.at
    }

    /// The share of the file that was read, from 0 to 1, where its size is known.
    pub fn share(&self) -> Option<f64> {
        let size = self.size.filter(|&size| size > 0)?;
        Some(self.taken.load(Ordering::Relaxed) as f64 / size as f64)
    }
}
