//! The header of a release beside its source's: the people, the names of those who left, and the dictionaries.

use std::collections::HashMap;

use crate::differences::Differences;
use crate::header::{shown, Header};
use crate::leavers::Leavers;
use crate::names::Dictionary;
use crate::people::Choice;

/// Numbers from 1 by name.
fn numbered(header: &Header) -> HashMap<&[u8], usize> {
    header.people.iter().map(Vec::as_slice).zip(1..).collect()
}

/// Finds whoever should have gone and did not, and then whoever else is in the release or is not.
fn people(source: &Header, release: &Header, choice: &Choice, found: &mut Differences) {
    let (known, there) = (numbered(source), numbered(release));
    let remained = choice.leaving(source).into_iter().filter_map(|name| Some((name, there.get(name)?)));
    remained.for_each(|(name, number)| {
        found.add(|| format!("{} left and is in the release, as its person {number}", shown(name)));
    });
    let strangers = release.people.iter().filter(|name| !known.contains_key(name.as_slice()));
    strangers.for_each(|name| found.add(|| format!("{} is in the release and not in the source", shown(name))));
    let lost = choice.staying(source).into_iter().filter(|name| !there.contains_key(name));
    lost.for_each(|name| found.add(|| format!("{} stays and is not in the release", shown(name))));
    order(&choice.staying(source), release, found);
}

/// Finds the first person who stands in another place, where the people are those who stay.
fn order(staying: &[&[u8]], release: &Header, found: &mut Differences) {
    let there = numbered(release);
    if there.len() != staying.len() || !staying.iter().all(|name| there.contains_key(name)) {
        return;
    }
    let other = staying.iter().zip(&release.people).zip(1..).find(|((due, there), _)| **due != there.as_slice());
    if let Some(((due, there), number)) = other {
        let (due, there) = (shown(due), shown(there));
        found.add(|| {
            format!("the people stand in another order: person {number} of the release is {there}, expected {due}")
        });
    }
}

/// Finds names that have another offset, or none, in the release.
fn dictionaries(what: &str, source: &Dictionary, release: &Dictionary, may_lack: bool, found: &mut Differences) {
    let lacks = |offset: u32, name: &[u8]| match release.name(offset) {
        Some(there) => there != name,
        None => !may_lack,
    };
    for (offset, name) in source.all().filter(|&(offset, name)| lacks(offset, name)) {
        let there = release.name(offset).map_or("nothing".to_string(), shown);
        found.add(|| format!("the {what} at offset {offset} is {there} in the release, {} in the source", shown(name)));
    }
}

/// Compares the headers.
pub fn compare(source: &Header, release: &Header, choice: &Choice, found: &mut Differences) {
    people(source, release, choice, found);
    let (staying, leaving) = (choice.staying(source), choice.leaving(source));
    let leavers = Leavers::new(&staying, &leaving);
    for line in &release.lines {
        if let Some(name) = leavers.named(&line.text) {
            let (name, text) = (shown(name), shown(&line.text));
            found.add(|| format!("the release's header names {name}, who left, at byte {}: {text}", line.at));
        }
    }
    // Without people there are no FORMAT fields, and bcftools drops their lines.
    let may_lack = choice.stay.is_empty();
    dictionaries("string", &source.strings, &release.strings, may_lack, found);
    dictionaries("contig", &source.contigs, &release.contigs, false, found);
    if source.facts.gt != release.facts.gt && !may_lack {
        found.add(|| "GT has another offset in the release's header than in the source's".to_string());
    }
}

/// The choice that the release's own people are, where they are some of the source's, in order.
pub fn choice_of_release(source: &Header, release: &Header) -> Option<Choice> {
    let known: HashMap<&[u8], u32> = source.people.iter().map(Vec::as_slice).zip(0..).collect();
    let stay: Option<Vec<u32>> = release.people.iter().map(|name| known.get(name.as_slice()).copied()).collect();
    let stay = stay.filter(|stay| stay.is_sorted())?;
    let leave = (0..source.people.len() as u32).filter(|number| stay.binary_search(number).is_err()).collect();
    Some(Choice { stay, leave })
}
