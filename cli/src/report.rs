//! The page that an audit ends with, for people or for machines.

use crate::checksum::Named;
use crate::differences::Differences;
use crate::recount::COUNTS;
use crate::walk::Found;

const VERSION: &str = env!("CARGO_PKG_VERSION");
const CLAIMED: [&str; 4] = [
    "the release's people are exactly those who stay, in the source's order, and its header names nobody who left",
    "the release has the source's records in their order, each byte for byte the choice of those who stay",
    "each choice and each tally is the answer of the proved library, which is proved to equal its definition",
    "for every counter, over the records that have a tally, those who stay and those who left add up to the source's",
];
const NOT_CLAIMED: [&str; 5] = [
    "that INFO fields, which stay as they were, say nothing of those who left: AC, AN, AF, NS and their like still count them",
    "that a name is not spelt otherwise in the header, or that IDs of records and fields and INFO texts name nobody",
    "that the header's lines are as they were, but for the people and the offsets of names in the dictionaries",
    "that reading the files, their headers and the packed blocks, and printing this page, is proved: only the library is",
    "that the source itself is true, or that the list of names is the one that was meant",
];

/// What an audit found.
pub struct Report {
    /// The source, the release and the list of names.
    pub files: [Named; 3],
    /// People in the source, in the release, and those of the source who stay and who left.
    pub people: [usize; 4],
    /// Whether the records were compared with the choice of the release's own people, since they are others.
    pub by_own_people: bool,
    /// What the walk found; none where the records could not be compared.
    pub found: Option<Found>,
    /// What differs.
    pub differences: Differences,
}

/// Text in quotes as JSON has it.
fn quote(text: &str) -> String {
    let escaped = |character: char| match character {
        '"' => "\\\"".to_string(),
        '\\' => "\\\\".to_string(),
        control if (control as u32) < 0x20 => format!("\\u{:04x}", control as u32),
        plain => plain.to_string(),
    };
    format!("\"{}\"", text.chars().map(escaped).collect::<String>())
}

fn list(texts: impl Iterator<Item = String>) -> String {
    format!("[{}]", texts.collect::<Vec<String>>().join(","))
}

impl Named {
    fn line(&self, role: &str) -> String {
        let size = self.size.map_or("size not known".to_string(), |size| format!("{size} bytes"));
        let sum = self.sha256.as_deref().unwrap_or("not computed");
        format!("{role}: {}, {size}, SHA-256 {sum}\n", self.name)
    }

    fn json(&self, role: &str) -> String {
        let size = self.size.map_or("null".to_string(), |size| size.to_string());
        let sum = self.sha256.as_deref().map_or("null".to_string(), quote);
        format!("{}:{{\"name\":{},\"size\":{size},\"sha256\":{sum}}}", quote(role), quote(&self.name))
    }
}

impl Found {
    fn lines(&self) -> String {
        let mut page = format!(
            "records: {} in the source, {} in the release, {} the same\n",
            self.source, self.release, self.same
        );
        page.push_str("tallies: source = those who stay + those who left\n");
        for (name, [whole, stay, left]) in self.sums.counters() {
            let sign = if whole == stay + left { "=" } else { "is not" };
            page.push_str(&format!("  {name}: {whole} {sign} {stay} + {left}\n"));
        }
        if self.sums.without_tally > 0 {
            page.push_str(&format!(
                "  records without a tally (refused, or more than 64 alleles): {}\n",
                self.sums.without_tally
            ));
        }
        let recount = &self.sums.recount;
        for ((name, there), stale) in
            COUNTS.iter().zip(recount.there).zip(recount.stale).filter(|((_, there), _)| *there > 0)
        {
            page.push_str(&format!("caution: INFO {name} is in {there} records, and in {stale} it no longer agrees with a recount of those who stay\n"));
        }
        page
    }

    fn json(&self) -> String {
        let counters = self.sums.counters().into_iter().map(|(name, [whole, stay, left])| {
            format!("{{\"name\":{},\"source\":{whole},\"stay\":{stay},\"left\":{left}}}", quote(&name))
        });
        let recount = &self.sums.recount;
        let cautions = COUNTS.iter().zip(recount.there).zip(recount.stale).map(|((name, there), stale)| {
            format!("{{\"info\":{},\"records\":{there},\"stale\":{stale}}}", quote(name))
        });
        format!(
            "\"records\":{{\"source\":{},\"release\":{},\"same\":{},\"without_tally\":{}}},\"tallies\":{},\"cautions\":{}",
            self.source, self.release, self.same, self.sums.without_tally, list(counters), list(cautions)
        )
    }
}

impl Report {
    /// The page for people.
    pub fn page(&self) -> String {
        let [source, release, names] = &self.files;
        let [all, there, stay, left] = self.people;
        let mut page = format!("sikalumdo {VERSION}, audit of a release\n");
        page.push_str(&(source.line("source") + &release.line("release") + &names.line("names")));
        page.push_str(&format!("people: {all} in the source, {stay} stay, {left} left; {there} in the release\n"));
        if self.by_own_people {
            page.push_str("the records are compared with the choice of the people that the release has\n");
        }
        match &self.found {
            Some(found) => page.push_str(&found.lines()),
            None => page.push_str(
                "records: not compared, since the release's people are not some of the source's in their order\n",
            ),
        }
        let Differences { told, count } = &self.differences;
        page.push_str(&format!("differences: {count}{}\n", if told.is_empty() { "" } else { ", the first of them:" }));
        told.iter().for_each(|words| page.push_str(&format!("  {words}\n")));
        if *count == 0 {
            page.push_str("claimed:\n");
            CLAIMED.iter().for_each(|words| page.push_str(&format!("  {words}\n")));
        }
        page.push_str("not claimed:\n");
        NOT_CLAIMED.iter().for_each(|words| page.push_str(&format!("  {words}\n")));
        page.push_str(if *count == 0 {
            "the release is what it should be\n"
        } else {
            "the release is NOT what it should be\n"
        });
        page
    }

    /// The page for machines, one line.
    pub fn json(&self) -> String {
        let [source, release, names] = &self.files;
        let [all, there, stay, left] = self.people;
        let found = self.found.as_ref().map_or("\"records\":null".to_string(), Found::json);
        let Differences { told, count } = &self.differences;
        format!(
            "{{\"version\":{},{},{},{},\"people\":{{\"source\":{all},\"release\":{there},\"stay\":{stay},\"left\":{left}}},\"by_own_people\":{},{found},\
             \"differences\":{count},\"first\":{},\"claimed\":{},\"not_claimed\":{}}}\n",
            quote(VERSION),
            source.json("source"),
            release.json("release"),
            names.json("names"),
            self.by_own_people,
            list(told.iter().map(|words| quote(words))),
            list(CLAIMED.iter().filter(|_| *count == 0).map(|words| quote(words))),
            list(NOT_CLAIMED.iter().map(|words| quote(words))),
        )
    }
}
