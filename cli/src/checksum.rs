//! A file named by its size and its SHA-256, which `sha256sum` computes while the audit goes on.

use std::fs;
use std::process::{Child, Command, Stdio};

use crate::source::called;

/// A checksum that is being computed.
pub struct Checksum {
    name: String,
    child: Option<Child>,
}

/// What a file is named by.
pub struct Named {
    /// Its name.
    pub name: String,
    /// Its size in bytes.
    pub size: Option<u64>,
    /// Its SHA-256 in hexadecimal.
    pub sha256: Option<String>,
}

impl Checksum {
    /// Starts the computing. Standard input and a pipe have none: reading them would take their bytes away.
    pub fn start(path: &str) -> Checksum {
        let mut command = Command::new("sha256sum");
        command.arg("--").arg(path).stdin(Stdio::null()).stdout(Stdio::piped()).stderr(Stdio::null());
        let is_file = path != "-" && fs::metadata(path).is_ok_and(|known| known.is_file());
        let child = if is_file { command.spawn().ok() } else { None };
        Checksum { name: called(path), child }
    }

    /// Waits for it. Where there is no `sha256sum` there is no checksum, and the report says so.
    pub fn finish(self) -> Named {
        let size = fs::metadata(&self.name).ok().filter(|known| known.is_file()).map(|known| known.len());
        let said = self.child.and_then(|child| child.wait_with_output().ok()).filter(|said| said.status.success());
        let text = said.map(|said| String::from_utf8_lossy(&said.stdout).into_owned());
        // A name with a backslash or a line feed is announced by a backslash before the digits.
        let sha256 = text.and_then(|text| Some(text.split_whitespace().next()?.trim_start_matches('\\').to_string()));
        Named { name: self.name, size, sha256 }
    }
}
