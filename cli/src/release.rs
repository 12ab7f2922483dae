//! A release, or text, while it is written: beside its place, and put there by a rename once it is whole.

use std::fs::{self, File};
use std::io::{self, Write};
use std::os::fd::AsFd;
use std::os::unix::fs::MetadataExt;
use std::path::PathBuf;
use std::process::{Child, Command, Stdio};

use crate::output::Output;
use crate::stop::{Outcome, Stop};

/// A release that is not whole yet. Dropped so, it leaves nothing behind.
pub struct Release {
    name: String,
    output: Option<Output>,
    packer: Option<Child>,
    beside: Option<Beside>,
}

/// The file beside the release's place, removed unless it was put there.
struct Beside {
    path: PathBuf,
    place: PathBuf,
    file: File,
}

/// Whether two paths lead to one file.
fn is_same(one: &str, other: &str) -> bool {
    let identity = |path: &str| fs::metadata(path).map(|known| (known.dev(), known.ino())).ok();
    one != "-" && identity(one).is_some_and(|one| Some(one) == identity(other))
}

/// The file to write to, with the one beside where the release goes to a file.
fn target(path: &str) -> io::Result<(File, Option<Beside>)> {
    if path == "-" {
        return Ok((File::from(io::stdout().as_fd().try_clone_to_owned()?), None));
    }
    if fs::metadata(path).is_ok_and(|known| !known.is_file()) {
        // A device or a pipe is written to as it is; a rename would replace it.
        return Ok((File::options().write(true).open(path)?, None));
    }
    // Where the path is a link, the file that it leads to is replaced, not the link.
    let place = fs::canonicalize(path).unwrap_or_else(|_| PathBuf::from(path));
    let mut name = place.file_name().ok_or_else(|| io::Error::other("it names no file"))?.to_os_string();
    name.push(format!(".part-{}", std::process::id()));
    let beside = place.with_file_name(name);
    let file = File::options().write(true).create_new(true).open(&beside)?;
    let kept = file.try_clone()?;
    Ok((file, Some(Beside { path: beside, place, file: kept })))
}

/// Starts bgzip before a file.
fn packing(file: File, threads: usize) -> io::Result<(Child, Box<dyn Write>)> {
    let mut command = Command::new("bgzip");
    command.args(["-c", "-@", &threads.to_string()]).stdin(Stdio::piped()).stdout(file).stderr(Stdio::null());
    let mut child = command.spawn()?;
    let pipe = child.stdin.take().ok_or_else(|| io::Error::other("it has no pipe"))?;
    Ok((child, Box::new(pipe)))
}

impl Release {
    /// Begins a release of a source.
    pub fn begin(path: &str, source: &str, packed: bool, threads: usize) -> Outcome<Release> {
        if is_same(path, source) {
            return Err(Stop::usage(format!("{path}: it would replace its source; expected another file")));
        }
        let name = if path == "-" { "standard output" } else { path };
        let opened = target(path).map_err(|error| Stop::machine(name, "cannot be written", &error))?;
        let mut release = Release { name: name.to_string(), output: None, packer: None, beside: opened.1 };
        let to: Box<dyn Write> = if packed {
            let started = packing(opened.0, threads);
            let (packer, pipe) =
                started.map_err(|error| Stop::machine(name, "bgzip cannot be started to pack it", &error))?;
            release.packer = Some(packer);
            pipe
        } else {
            Box::new(opened.0)
        };
        release.output = Some(Output::new(name, to));
        Ok(release)
    }

    /// Writes bytes of the release.
    pub fn put(&mut self, bytes: &[u8]) -> Outcome<()> {
        self.output.as_mut().map_or(Ok(()), |output| output.put(bytes))
    }

    /// Puts the release in its place, once everything is on the disk.
    pub fn finish(mut self) -> Outcome<()> {
        // bgzip ends when its pipe is closed.
        self.output = None;
        let fails = |error: io::Error| Stop::machine(&self.name, "cannot be finished", &error);
        if let Some(packer) = &mut self.packer {
            let status = packer.wait().map_err(fails)?;
            if !status.success() {
                return Err(Stop::machine(
                    &self.name,
                    "cannot be packed",
                    &io::Error::other(format!("bgzip: {status}")),
                ));
            }
        }
        if let Some(beside) = &self.beside {
            beside.file.sync_all().and_then(|()| fs::rename(&beside.path, &beside.place)).map_err(fails)?;
        }
        self.beside = None;
        Ok(())
    }
}

impl Drop for Release {
    fn drop(&mut self) {
        self.output = None;
        if let Some(packer) = &mut self.packer {
            // Both fail only where it has ended already.
            let _ = packer.kill();
            let _ = packer.wait();
        }
        if let Some(beside) = &self.beside {
            // It is there unless somebody else removed it.
            let _ = fs::remove_file(&beside.path);
        }
    }
}
