//! `cut`: a release of the people who stay.

use sikalumdo::Refusal;

use crate::args::Asked;
use crate::header::{shown, written, Header};
use crate::leavers::{need, Leavers, Need};
use crate::output::say;
use crate::people::Choice;
use crate::place::refusal_words;
use crate::progress::Progress;
use crate::records::{Entry, Records};
use crate::release::Release;
use crate::source::Source;
use crate::stop::{Outcome, Stop};
use crate::work::share;

/// What one thread chose, one record after another at the buffer's start.
#[derive(Default)]
struct Chosen {
    buffer: Vec<u8>,
    used: usize,
    refused: Vec<String>,
}

impl Chosen {
    /// Adds the choice from a record. Room that was made once is kept.
    fn add(&mut self, header: &Header, stay: &[u32], bytes: &[u8]) -> Result<(), Refusal> {
        let wanted = self.used + bytes.len();
        if self.buffer.len() < wanted {
            self.buffer.resize(wanted.next_power_of_two(), 0);
        }
        let room = self.buffer.get_mut(self.used..).unwrap_or_default();
        self.used += sikalumdo::choose(bytes, &header.facts, stay, room)?;
        Ok(())
    }
}

fn cut_part(chosen: &mut Chosen, header: &Header, stay: &[u32], part: &[Entry]) {
    for entry in part {
        if let Err(refusal) = chosen.add(header, stay, entry.bytes) {
            chosen.refused.push(refusal_words(header, entry, &refusal));
        }
    }
}

/// The release's header. Lines that name somebody who leaves go, and are listed; one that records need cannot go.
fn released(name: &str, header: &Header, choice: &Choice) -> Outcome<Vec<u8>> {
    let (staying, leaving) = (choice.staying(header), choice.leaving(header));
    let leavers = Leavers::new(&staying, &leaving);
    let mut lines = Vec::new();
    for line in &header.lines {
        let Some(person) = leavers.named(&line.text) else {
            lines.push(line.text.as_slice());
            continue;
        };
        let (person, text) = (shown(person), shown(&line.text));
        if need(&line.text) == Need::Needed {
            let words = format!(
                "the header's line at byte {} names {person}, who leaves, and records need it: {text}",
                line.at
            );
            return Err(Stop::refused(name, words));
        }
        say(&format!("{name}: a line of the header goes, since it names {person}: {text}\n"))?;
    }
    Ok(written(&lines, &staying))
}

/// Writes what the threads chose, in order, and answers how many records were refused.
fn put_chosen(release: &mut Release, workers: &mut [Chosen], name: &str, leave_out: bool) -> Outcome<u64> {
    let mut refused = 0;
    for chosen in workers {
        for words in std::mem::take(&mut chosen.refused) {
            if !leave_out {
                return Err(Stop::refused(name, format!("{words}; there is no release")));
            }
            say(&format!("{name}: left out: {words}\n"))?;
            refused += 1;
        }
        release.put(chosen.buffer.get(..chosen.used).unwrap_or_default())?;
        chosen.used = 0;
    }
    Ok(refused)
}

/// Cuts a file, and answers the exit status.
pub fn cut(asked: &Asked) -> Outcome<u8> {
    let mut source = Source::open(asked.file(0), asked.threads)?;
    let header = Header::read(&mut source)?;
    let (choice, name) = (Choice::asked(asked, &header)?, source.name.clone());
    let head = released(&name, &header, &choice)?;
    let place = asked.output.as_deref().unwrap_or_default();
    let mut release = Release::begin(place, asked.file(0), asked.packed, asked.threads)?;
    release.put(&head)?;
    let mut records = Records::new(source, asked.threads);
    let mut progress = Progress::begin(asked.quiet);
    let mut workers: Vec<Chosen> = (0..asked.threads).map(|_| Chosen::default()).collect();
    let (mut count, mut refused) = (0, 0);
    loop {
        let batch = records.batch()?;
        let size = batch.len();
        if size == 0 {
            break;
        }
        share(&mut workers, &batch, |chosen, part| cut_part(chosen, &header, &choice.stay, part))?;
        refused += put_chosen(&mut release, &mut workers, &name, asked.leave_out_refused)?;
        count += size as u64;
        records.pass(size);
        progress.tell(count, records.source.share());
    }
    drop(progress);
    release.finish()?;
    if !asked.quiet {
        let (stay, left) = (choice.stay.len(), choice.leave.len());
        let place = if place == "-" { "standard output" } else { place };
        say(&format!("{place}: {} records, {refused} left out; {stay} people stay, {left} left\n", count - refused))?;
    }
    Ok(0)
}
