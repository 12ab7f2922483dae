//! In what a record of a release differs from what it should be: which field, which person, which bytes.

use sikalumdo::{Field, Kind, Record};

use crate::header::{shown, Header};

/// How many differences of one record are told.
const TOLD: usize = 4;
/// How many bytes of a value are shown.
const BYTES: usize = 16;

/// A value of both records, and how messages call it.
struct Both<'a> {
    name: String,
    due: Field<'a>,
    found: Field<'a>,
    people: usize,
}

/// Bytes in hexadecimal capitals, the first of many.
fn hexadecimal(bytes: &[u8]) -> String {
    let digits: Vec<String> = bytes.iter().take(BYTES).map(|byte| format!("{byte:02X}")).collect();
    let more = if bytes.len() > BYTES { " .." } else { "" };
    if bytes.is_empty() {
        return "none".to_string();
    }
    format!("{}{more}", digits.join(" "))
}

/// Whether two values of different types show the same.
fn shows_same(due: &Field, found: &Field) -> bool {
    let elements = |field: &Field| -> Vec<u32> {
        (0..).map_while(|index| sikalumdo::shown(field.elements, field.code, index)).collect()
    };
    due.len == found.len && elements(due) == elements(found)
}

fn bytes_words(what: &str, place: usize, due: &[u8], found: &[u8]) -> String {
    let (found, due) = (hexadecimal(found), hexadecimal(due));
    format!("{what}: bytes {found} in the release, {due} by the source (byte {place} of the record)")
}

/// The differences of the people's parts of a FORMAT value. Two people who have each other's are told as that.
fn people_words(both: &Both, names: &[Vec<u8>]) -> Vec<String> {
    let size = both.due.elements.len().checked_div(both.people).unwrap_or(0).max(1);
    let parts = both.due.elements.chunks(size).zip(both.found.elements.chunks(size)).enumerate();
    let other: Vec<(usize, &[u8], &[u8])> =
        parts.filter(|(_, (due, found))| due != found).map(|(person, (due, found))| (person, due, found)).collect();
    let name = |person: usize| names.get(person).map_or(String::new(), |name| shown(name));
    if let [(one, due_one, found_one), (two, due_two, found_two)] = other[..] {
        if due_one == found_two && due_two == found_one {
            return vec![format!("{}: {} and {} are exchanged", both.name, name(one), name(two))];
        }
    }
    let place = |person: usize| both.found.place as usize + person * size;
    let words = |&(person, due, found): &(usize, &[u8], &[u8])| {
        bytes_words(&format!("{} of {}", both.name, name(person)), place(person), due, found)
    };
    let mut told: Vec<String> = other.iter().take(TOLD).map(words).collect();
    if other.len() > TOLD {
        told.push(format!("{} of {} people more", both.name, other.len() - TOLD));
    }
    told
}

/// In what a value differs.
fn field_words(both: &Both, header: &Header) -> Vec<String> {
    let Both { name, due, found, .. } = both;
    let key = |key: u32| header.strings.name(key).map_or(format!("key {key}"), shown);
    if due.key != found.key {
        return vec![format!("{name}: the release has {} there", key(found.key))];
    }
    if due.code != found.code && shows_same(due, found) {
        let (found, due) = (found.code, due.code);
        return vec![format!(
            "{name}: the same values in other bytes, of type {found} in the release, type {due} by the source"
        )];
    }
    if (due.code, due.len) != (found.code, found.len) {
        let form = |field: &Field| format!("length {} and type {}", field.len, field.code);
        return vec![format!("{name}: {} in the release, {} by the source", form(found), form(due))];
    }
    match due.elements == found.elements {
        true => Vec::new(),
        false if both.people > 0 => people_words(both, &header.people),
        false => vec![bytes_words(name, found.place as usize, due.elements, found.elements)],
    }
}

/// The values of both records that have the same kind and number.
fn values<'a>(header: &Header, due: &Record<'a>, found: &Record<'a>) -> Vec<Both<'a>> {
    let site = due.site();
    let kinds = [
        (Kind::ID, 1, "ID"),
        (Kind::ALLELE, site.alleles, "allele"),
        (Kind::FILTER, 1, "FILTER"),
        (Kind::INFO, site.infos, "INFO"),
        (Kind::FORMAT, site.formats, "FORMAT"),
    ];
    let each = kinds.iter().flat_map(|&(kind, count, word)| (0..count).map(move |number| (kind, number, word)));
    let both = |(kind, number, word): (Kind, u32, &str)| {
        let (due, found) = (due.fetch(kind, number).ok()?, found.fetch(kind, number).ok()?);
        let name = match kind {
            Kind::ID | Kind::FILTER => word.to_string(),
            Kind::ALLELE => format!("{word} {number}"),
            _ => format!("{word} {}", header.strings.name(due.key).map_or(format!("key {}", due.key), shown)),
        };
        let people = if kind == Kind::FORMAT { site.people as usize } else { 0 };
        Some(Both { name, due, found, people })
    };
    each.filter_map(both).collect()
}

/// The fixed fields and counts that differ.
fn fixed_words(header: &Header, due: &Record, found: &Record) -> Vec<String> {
    let (due, found) = (due.site(), found.site());
    let contig = |chrom: i32| header.contigs.name(chrom as u32).map_or(chrom.to_string(), shown);
    let numbers = [
        ("CHROM", contig(due.chrom), contig(found.chrom)),
        ("POS", due.vcf_pos().to_string(), found.vcf_pos().to_string()),
        ("rlen", due.rlen.to_string(), found.rlen.to_string()),
        ("QUAL's bits", format!("{:08X}", due.qual_bits), format!("{:08X}", found.qual_bits)),
        ("the number of alleles", due.alleles.to_string(), found.alleles.to_string()),
        ("the number of INFO fields", due.infos.to_string(), found.infos.to_string()),
        ("the number of FORMAT fields", due.formats.to_string(), found.formats.to_string()),
    ];
    let other = numbers.into_iter().filter(|(_, due, found)| due != found);
    other.map(|(name, due, found)| format!("{name}: {found} in the release, {due} by the source")).collect()
}

/// In what a record of the release differs from what it should be. The header is the release's, with the source's names.
pub fn explain(header: &Header, due: &[u8], found: &[u8]) -> Vec<String> {
    let read = |bytes| Record::read(bytes, &header.facts);
    let (due_record, found_record) = match (read(due), read(found)) {
        (Ok(due), Ok(found)) => (due, found),
        (Ok(_), Err(refusal)) => return vec![format!("the release's record is refused: {refusal}")],
        (Err(refusal), _) => {
            return vec![format!("by the release's header the record that is due is refused: {refusal}")]
        }
    };
    let mut words = fixed_words(header, &due_record, &found_record);
    let values = values(header, &due_record, &found_record);
    words.extend(values.iter().flat_map(|both| field_words(both, header)));
    words.truncate(TOLD + 1);
    if words.is_empty() {
        let at = due.iter().zip(found).position(|(due, found)| due != found).unwrap_or(due.len().min(found.len()));
        words.push(format!("the same values in other bytes, from byte {at} of the record on"));
    }
    words
}
