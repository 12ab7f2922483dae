//! A line on the terminal that says how far the work is.

use std::io::{stderr, IsTerminal, Write};
use std::time::{Duration, Instant};

const EVERY: Duration = Duration::from_millis(500);

/// Says how far the work is, where standard error is a terminal.
pub struct Progress {
    began: Instant,
    said: Option<Instant>,
    shows: bool,
}

impl Progress {
    /// Begins to count the time.
    pub fn begin(quiet: bool) -> Progress {
        Progress { began: Instant::now(), said: None, shows: !quiet && stderr().is_terminal() }
    }

    /// Tells the records so far and the share of the file, twice a second at most.
    pub fn tell(&mut self, records: u64, share: Option<f64>) {
        let now = Instant::now();
        if !self.shows || self.said.is_some_and(|said| now - said < EVERY) {
            return;
        }
        self.said = Some(now);
        let spent = (now - self.began).as_secs_f64();
        let part = match share.filter(|&share| share > 0.0) {
            Some(share) => format!(", {:.0} % of the file, {:.0} s left", share * 100.0, spent * (1.0 - share) / share),
            None => String::new(),
        };
        // A terminal that takes no more is no reason to stop the work.
        let _ = write!(stderr(), "\r\x1b[K{records} records{part}");
    }
}

/// The line goes when the work is done.
impl Drop for Progress {
    fn drop(&mut self) {
        if self.said.is_some() {
            let _ = write!(stderr(), "\r\x1b[K");
        }
    }
}
