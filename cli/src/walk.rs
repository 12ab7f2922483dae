//! The walk over a source and its release, record beside record. Where one is dropped, doubled or moved, the walk finds
//! its step again.

use crate::compare::{chosen, Compared, Sums, Terms};
use crate::differences::Differences;
use crate::explain::explain;
use crate::header::Header;
use crate::place::{is_same_place, record_words, refusal_words};
use crate::progress::Progress;
use crate::records::{site_block, Entry, Records};
use crate::shifts::Shifts;
use crate::stop::Outcome;
use crate::work::share;

/// How many records ahead the step is looked for.
const AHEAD: usize = 64;

/// A source and its release on the way.
pub struct Walk<'a> {
    terms: &'a Terms,
    headers: (&'a Header, &'a Header),
    source: Records,
    release: Records,
    workers: Vec<Compared>,
    shifts: Shifts,
    /// What was found.
    pub found: Found,
}

/// What the walk found.
#[derive(Default)]
pub struct Found {
    /// Records of the source.
    pub source: u64,
    /// Records of the release.
    pub release: u64,
    /// Records that are the same.
    pub same: u64,
    /// Sums over the pairs.
    pub sums: Sums,
}

/// How the two files stand to each other where a pair is not the same.
enum Step {
    /// The records belong together.
    Beside,
    /// So many of the source are not in the release.
    Missing(usize),
    /// So many of the release are too many.
    Extra(usize),
}

/// Whether a record of the release is the choice from one of the source. Most are known not to be by their places.
fn is_choice(terms: &Terms, source: &Entry, release: &Entry, buffer: &mut Vec<u8>) -> bool {
    is_same_place(source.bytes, release.bytes)
        && chosen(source.bytes, &terms.source, &terms.choice.stay, buffer) == Some(release.bytes)
}

/// How the files go on from a pair that is not the same: by the fewest records that are skipped.
fn step(terms: &Terms, source: &[Entry], release: &[Entry]) -> Step {
    let (Some(first), Some(found)) = (source.first(), release.first()) else { return Step::Beside };
    let mut buffer = Vec::new();
    let due = chosen(first.bytes, &terms.source, &terms.choice.stay, &mut buffer);
    let is_refused = due.is_none();
    if due.is_some_and(|due| site_block(due) == site_block(found.bytes)) {
        return Step::Beside;
    }
    for ahead in 1..AHEAD {
        if release.get(ahead).is_some_and(|later| is_choice(terms, first, later, &mut buffer)) {
            return Step::Extra(ahead);
        }
        if source.get(ahead).is_some_and(|later| is_choice(terms, later, found, &mut buffer)) {
            return Step::Missing(ahead);
        }
    }
    // A record that is refused has no choice, so one at another place was not made of it.
    if is_refused && !is_same_place(first.bytes, found.bytes) {
        return Step::Missing(1);
    }
    Step::Beside
}

impl<'a> Walk<'a> {
    /// A walk from the first records on.
    pub fn new(
        terms: &'a Terms,
        headers: (&'a Header, &'a Header),
        files: (Records, Records),
        threads: usize,
    ) -> Walk<'a> {
        let workers = (0..threads).map(|_| Compared::default()).collect();
        let (source, release) = files;
        Walk { terms, headers, source, release, workers, shifts: Shifts::default(), found: Found::default() }
    }

    /// Goes to the end of both files.
    pub fn go(&mut self, differences: &mut Differences, progress: &mut Progress) -> Outcome<()> {
        let mut most = usize::MAX;
        loop {
            let (source, release) = (self.source.first(most, 1)?, self.release.first(most, 1)?);
            let pairs: Vec<(Entry, Entry)> = source.into_iter().zip(release).collect();
            if pairs.is_empty() {
                return self.rest(differences);
            }
            share(&mut self.workers, &pairs, |worker, part| worker.compare(self.terms, part))?;
            let (same, sums) = collected(&mut self.workers, pairs.len());
            let (is_whole, last) = (same == pairs.len(), same.checked_sub(1).and_then(|last| pairs.get(last)));
            if let Some((_, release)) = last {
                self.shifts.note_last(release);
            }
            self.found.sums.join(&sums);
            self.found.same += same as u64;
            self.pass(same, same);
            // After a difference there may be many, so fewer pairs are compared in vain.
            most = if is_whole { most.saturating_mul(2) } else { 1 };
            if !is_whole {
                self.differ(differences)?;
            }
            progress.tell(self.found.source, self.source.source.share());
        }
    }

    fn pass(&mut self, source: usize, release: usize) {
        self.source.pass(source);
        self.release.pass(release);
        self.found.source += source as u64;
        self.found.release += release as u64;
    }

    /// Tells what differs at the pair at hand, and goes past it.
    fn differ(&mut self, differences: &mut Differences) -> Outcome<()> {
        let (source, release) = (self.source.first(AHEAD, AHEAD)?, self.release.first(AHEAD, AHEAD)?);
        let (mut passed_source, mut passed_release) = (0, 0);
        match step(self.terms, &source, &release) {
            Step::Missing(count) => passed_source = count,
            Step::Extra(count) => passed_release = count,
            Step::Beside => {
                (passed_source, passed_release) = (1, 1);
                if let (Some(source), Some(release)) = (source.first(), release.first()) {
                    beside(self.terms, self.headers, (source, release), differences);
                    self.found.sums.add(self.terms, source.bytes, release.bytes, &mut Vec::new());
                }
            }
        }
        let (missing, extra) = match (passed_source, passed_release) {
            (missing, 0) => (source.get(..missing), None),
            (0, extra) => (None, release.get(..extra)),
            _ => (None, None),
        };
        self.shifts.tell_missing(self.terms, self.headers.0, missing.unwrap_or_default(), differences);
        self.shifts.tell_extra(self.headers.1, extra.unwrap_or_default(), differences);
        self.pass(passed_source, passed_release);
        Ok(())
    }

    /// Tells of what one file has after the other's end.
    fn rest(&mut self, differences: &mut Differences) -> Outcome<()> {
        loop {
            let (source, release) = (self.source.batch()?, self.release.batch()?);
            let (sources, releases) = (source.len(), release.len());
            if sources + releases == 0 {
                return Ok(());
            }
            self.shifts.tell_missing(self.terms, self.headers.0, &source, differences);
            self.shifts.tell_extra(self.headers.1, &release, differences);
            self.pass(sources, releases);
        }
    }
}

/// How many pairs are the same from the first on, and their sums. What a thread found after another's difference is let
/// go.
fn collected(workers: &mut [Compared], pairs: usize) -> (usize, Sums) {
    let size = pairs.div_ceil(workers.len().max(1)).max(1);
    let (mut same, mut sums) = (0, Sums::default());
    for (worker, first) in workers.iter_mut().zip((0..).step_by(size)) {
        if same == first {
            same += worker.same;
            sums.join(&worker.sums);
        }
        worker.clear();
    }
    (same, sums)
}

/// Tells in what a record of the release differs from what it should be.
fn beside(terms: &Terms, headers: (&Header, &Header), pair: (&Entry, &Entry), differences: &mut Differences) {
    let ((source, release), (header, release_header)) = (pair, headers);
    let mut buffer = vec![0; source.bytes.len()];
    match sikalumdo::choose(source.bytes, &terms.source, &terms.choice.stay, &mut buffer) {
        Err(refusal) => {
            let words = refusal_words(header, source, &refusal);
            differences.add(|| format!("the source's {words}; there is nothing that the release's record should be"));
        }
        Ok(length) => {
            let words = explain(release_header, buffer.get(..length).unwrap_or_default(), release.bytes);
            let record = record_words(header, source);
            differences.add(|| format!("{record}: {}", words.join("; ")));
        }
    }
}
