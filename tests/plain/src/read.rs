//! Reading: judging a whole record in byte order and answering its length, its fixed fields and its counts.

use crate::allele;
use crate::descriptor::{filled, single, value, Single, Value};
use crate::elements::{judge_bytes, numbers};
use crate::facts::Facts;
use crate::filter;
use crate::fixed::{fixed, frame, ID_PLACE, MOST_FORMATS};
use crate::genotype;
use crate::refusal::{Refusal, OUTSIDE_DICTIONARY, REPEATED, WRONG_LENGTH};
use crate::types::{width, ANY, INTEGER, TEXT};

/// What reading answers on an accepted record.
#[derive(Debug, Clone, Copy, PartialEq, Eq)]
pub struct Site {
    /// The record's length in all.
    pub length: u32,
    /// The place where the genotype block starts, which is the site block's end.
    pub border: u32,
    pub contig: i32,
    pub pos: i32,
    pub rlen: i32,
    pub qual_bits: u32,
    pub alleles: u32,
    pub infos: u32,
    pub formats: u32,
    pub people: u32,
    /// The place of the first INFO pair, or the site block's end where there is none.
    pub first_info: u32,
    /// GT's type; 0 for a bare 00, and 0 with length and place 0 where there is no GT field.
    pub gt_type: u8,
    pub gt_len: u32,
    /// The place of GT's first element, or just after its descriptor for length 0.
    pub gt_first: u32,
}

/// Reads the record at the start of `s`; bytes after it belong to the next one.
pub fn read(s: &[u8], facts: &Facts) -> Result<Site, Refusal> {
    let (border, length) = frame(s)?;
    let fixed = fixed(s, facts)?;
    let site = &s[..border];
    let first_info = read_names(site, fixed.alleles, facts)?;
    let stop = read_infos(site, first_info, fixed.infos, facts)?;
    filled(site, stop)?;
    let gt = read_formats(&s[..length], border, fixed.formats, fixed.alleles, facts)?;
    Ok(Site {
        length: length as u32,
        border: border as u32,
        contig: fixed.contig,
        pos: fixed.pos,
        rlen: fixed.rlen,
        qual_bits: fixed.qual_bits,
        alleles: fixed.alleles,
        infos: fixed.infos,
        formats: fixed.formats,
        people: fixed.people,
        first_info: first_info as u32,
        gt_type: gt.code,
        gt_len: gt.len,
        gt_first: gt.first as u32,
    })
}

/// ID, alleles and FILTER; gives the place after them.
fn read_names(site: &[u8], alleles: u32, facts: &Facts) -> Result<usize, Refusal> {
    let id = value(site, ID_PLACE, TEXT, 1)?;
    judge_plain(site, &id)?;
    let mut at = id.stop;
    for _ in 0..alleles {
        let allele = value(site, at, TEXT, 1)?;
        if allele.len == 0 {
            return Err(Refusal::at(WRONG_LENGTH, at));
        }
        allele::judge(&site[allele.first..allele.stop]).map_err(|fault| fault.placed(allele.first, 1))?;
        at = allele.stop;
    }
    let filter = value(site, at, INTEGER, 1)?;
    filter::judge(numbers(&site[filter.first..filter.stop], filter.code), facts)
        .map_err(|fault| fault.placed(filter.first, width(filter.code)))?;
    Ok(filter.stop)
}

/// The INFO pairs; gives the place after them.
fn read_infos(site: &[u8], first: usize, infos: u32, facts: &Facts) -> Result<usize, Refusal> {
    let mut at = first;
    for _ in 0..infos {
        let key = read_key(site, at, facts)?;
        let info = value(site, key.stop, ANY, 1)?;
        judge_plain(site, &info)?;
        at = info.stop;
    }
    Ok(at)
}

/// The genotype block, which ends with the record; gives GT's value, of type 0 at place 0 where there is no GT.
fn read_formats(record: &[u8], border: usize, formats: u32, alleles: u32, facts: &Facts) -> Result<Value, Refusal> {
    let mut at = border;
    let mut gt = Value { code: 0, len: 0, first: 0, stop: 0 };
    let mut keys = [0; MOST_FORMATS];
    for number in 0..formats as usize {
        let key = read_key(record, at, facts)?;
        if keys[..number].contains(&key.number) {
            return Err(Refusal::at(REPEATED, key.first));
        }
        keys[number] = key.number;
        let is_gt = facts.is_gt(key.number);
        let format = value(record, key.stop, if is_gt { INTEGER } else { ANY }, facts.people)?;
        at = format.stop;
        if is_gt {
            genotype::judge_bytes(&record[format.first..format.stop], format.code, format.len as usize, alleles)
                .map_err(|fault| fault.placed(format.first, width(format.code)))?;
            gt = format;
        } else {
            judge_plain(record, &format)?;
        }
    }
    filled(record, at)?;
    Ok(gt)
}

fn read_key(block: &[u8], at: usize, facts: &Facts) -> Result<Single, Refusal> {
    let key = single(block, at)?;
    if !facts.in_dictionary(key.number) {
        return Err(Refusal::at(OUTSIDE_DICTIONARY, key.first));
    }
    Ok(key)
}

/// Judges the elements of a value that has no rule but its type's.
fn judge_plain(block: &[u8], value: &Value) -> Result<(), Refusal> {
    judge_bytes(&block[value.first..value.stop], value.code, value.len as usize)
        .map_err(|fault| fault.placed(value.first, width(value.code)))
}
