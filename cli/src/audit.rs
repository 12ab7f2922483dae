//! `audit`: whether a release is its source with exactly the people who stay.

use crate::args::{Asked, List};
use crate::checksum::Checksum;
use crate::compare::Terms;
use crate::differences::Differences;
use crate::header::Header;
use crate::headers::{choice_of_release, compare};
use crate::output::Output;
use crate::people::Choice;
use crate::progress::Progress;
use crate::records::Records;
use crate::recount::offsets;
use crate::report::Report;
use crate::source::Source;
use crate::stop::{Outcome, DIFFERS};
use crate::walk::{Found, Walk};

/// The choice to compare the records by: the one that was asked for or, where the release has other people, theirs, so
/// that what else differs is found too.
fn comparable(source: &Header, release: &Header, asked: Choice) -> Option<Choice> {
    match choice_of_release(source, release) {
        Some(own) if own.stay != asked.stay => Some(own),
        _ if release.people.len() == asked.stay.len() => Some(asked),
        _ => None,
    }
}

/// Each sum of the source is that of those who stay and those who left together.
fn add_up(found: &Found, differences: &mut Differences) {
    for (name, [whole, stay, left]) in found.sums.counters() {
        if whole != stay + left {
            differences.add(|| format!("the tallies do not add up: {name}: {whole} in the source, {stay} + {left}"));
        }
    }
}

/// Audits a release, and answers the exit status.
pub fn audit(asked: &Asked) -> Outcome<u8> {
    let list = match &asked.list {
        Some(List::Without(path) | List::Only(path)) => path.as_str(),
        None => "",
    };
    let sums = [asked.file(0), asked.file(1), list].map(Checksum::start);
    let mut source = Source::open(asked.file(0), asked.threads)?;
    let header = Header::read(&mut source)?;
    let mut release = Source::open(asked.file(1), asked.threads)?;
    let release_header = Header::read(&mut release)?;
    let choice = Choice::asked(asked, &header)?;
    let people = [header.people.len(), release_header.people.len(), choice.stay.len(), choice.leave.len()];
    let mut differences = Differences::default();
    compare(&header, &release_header, &choice, &mut differences);
    let (mut found, mut by_own_people) = (None, false);
    let stay = choice.stay.clone();
    if let Some(choice) = comparable(&header, &release_header, choice) {
        by_own_people = choice.stay != stay;
        let offsets = offsets(&release_header);
        let terms = Terms { source: header.facts, release: release_header.facts, choice, offsets };
        let files = (Records::new(source, asked.threads), Records::new(release, asked.threads));
        let mut walk = Walk::new(&terms, (&header, &release_header), files, asked.threads);
        walk.go(&mut differences, &mut Progress::begin(asked.quiet))?;
        add_up(&walk.found, &mut differences);
        found = Some(walk.found);
    } else {
        differences.add(|| "the records cannot be compared".to_string());
    }
    let report = Report { files: sums.map(Checksum::finish), people, by_own_people, found, differences };
    let page = if asked.json { report.json() } else { report.page() };
    Output::standard()?.put(page.as_bytes())?;
    Ok(if report.differences.count == 0 { 0 } else { DIFFERS })
}
