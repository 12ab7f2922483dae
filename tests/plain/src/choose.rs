//! Choosing people: a record of some of its people, with each chosen person's elements kept at their width.

use crate::facts::Facts;
use crate::fetch::keyed;
use crate::fixed::{genotype_counts, put_word, GENOTYPE_COUNTS, L_INDIV};
use crate::read::{read, Site};
use crate::refusal::{Refusal, BAD_CHOICE, NO_ROOM};
use crate::types::width;

/// Writes the record of the chosen people to the start of `buf` and gives its length. Reading's refusal first, then
/// 14, then 13; a refusal writes nothing, and bytes past the chosen record stay.
pub fn choose(s: &[u8], facts: &Facts, choice: &[u32], buf: &mut [u8]) -> Result<u32, Refusal> {
    let site = read(s, facts)?;
    let ascending = choice.windows(2).all(|pair| pair[0] < pair[1]);
    if !ascending || choice.last().is_some_and(|&last| last >= site.people) {
        return Err(Refusal::of(BAD_CHOICE));
    }
    let formats = if choice.is_empty() { 0 } else { site.formats };
    let border = site.border as usize;
    let length = border + chosen_bytes(s, &site, formats, choice.len())?;
    let chosen = buf.get_mut(..length).ok_or(Refusal::of(NO_ROOM))?;
    chosen[..border].copy_from_slice(&s[..border]);
    put_word(chosen, L_INDIV, (length - border) as u32);
    put_word(chosen, GENOTYPE_COUNTS, genotype_counts(formats, choice.len() as u32));
    write_formats(s, &site, formats, choice, &mut chosen[border..])?;
    Ok(length as u32)
}

/// One FORMAT field of an accepted record: its key and descriptor, the elements of all people, and how many bytes of
/// them are one person's.
struct Format<'a> {
    head: &'a [u8],
    elements: &'a [u8],
    person: usize,
}

/// The FORMAT field at a place, and the place after it.
fn format_at<'a>(s: &'a [u8], site: &Site, at: usize) -> Result<(Format<'a>, usize), Refusal> {
    let record = &s[..site.length as usize];
    let field = keyed(record, at, site.people, 0)?;
    let (first, stop) = (field.first as usize, field.stop as usize);
    let person = field.len as usize * width(field.code);
    Ok((Format { head: &record[at..first], elements: &record[first..stop], person }, stop))
}

/// The bytes of the genotype block of `people` people.
fn chosen_bytes(s: &[u8], site: &Site, formats: u32, people: usize) -> Result<usize, Refusal> {
    let (mut at, mut bytes) = (site.border as usize, 0);
    for _ in 0..formats {
        let (format, stop) = format_at(s, site, at)?;
        bytes += format.head.len() + people * format.person;
        at = stop;
    }
    Ok(bytes)
}

/// Writes the FORMAT fields of the chosen people, which fill `block`.
fn write_formats(s: &[u8], site: &Site, formats: u32, choice: &[u32], mut block: &mut [u8]) -> Result<(), Refusal> {
    let mut at = site.border as usize;
    for _ in 0..formats {
        let (format, stop) = format_at(s, site, at)?;
        let (head, rest) = block.split_at_mut(format.head.len());
        let (elements, rest) = rest.split_at_mut(choice.len() * format.person);
        head.copy_from_slice(format.head);
        copy_people(format.elements, format.person, choice, elements);
        (at, block) = (stop, rest);
    }
    Ok(())
}

/// Copies each chosen person's bytes in order. The ordinary sizes are copied as arrays, since a copy of a size that
/// isn't known beforehand costs more than the one to eight bytes themselves.
fn copy_people(from: &[u8], person: usize, choice: &[u32], to: &mut [u8]) {
    match person {
        0 => {}
        1 => copy_arrays::<1>(from, choice, to),
        2 => copy_arrays::<2>(from, choice, to),
        4 => copy_arrays::<4>(from, choice, to),
        8 => copy_arrays::<8>(from, choice, to),
        _ => {
            for (slot, &number) in to.chunks_exact_mut(person).zip(choice) {
                slot.copy_from_slice(&from[number as usize * person..][..person]);
            }
        }
    }
}

fn copy_arrays<const N: usize>(from: &[u8], choice: &[u32], to: &mut [u8]) {
    let from = from.as_chunks::<N>().0;
    for (slot, &number) in to.as_chunks_mut::<N>().0.iter_mut().zip(choice) {
        *slot = from[number as usize];
    }
}
