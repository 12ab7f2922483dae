//! The first 32 bytes of a record: the two block lengths, the fixed fields and the two fields of counts. Where each of
//! them stands is said here and nowhere else.

use crate::facts::Facts;
use crate::refusal::{Refusal, FIXED_FIELD, PAST_BLOCK, TOO_FEW_BYTES, TOO_LONG};

/// The most bytes that a record has in all.
pub(crate) const MOST_BYTES: u64 = 16_777_216;
/// The most people that the 24 bits of their count hold.
pub(crate) const MOST_PEOPLE: u32 = 16_777_215;
/// The most alleles, and INFO fields, that 16 bits hold.
pub(crate) const MOST_IN_SITE: u32 = 65_535;
/// The most FORMAT fields that 8 bits hold.
pub(crate) const MOST_FORMATS: usize = 255;

/// The places of the first fields, of four bytes each.
pub(crate) const L_SHARED: usize = 0;
pub(crate) const L_INDIV: usize = 4;
pub(crate) const CONTIG: usize = 8;
pub(crate) const POS: usize = 12;
pub(crate) const RLEN: usize = 16;
pub(crate) const QUAL: usize = 20;
/// Alleles and INFO fields.
pub(crate) const SITE_COUNTS: usize = 24;
/// FORMAT fields and people.
pub(crate) const GENOTYPE_COUNTS: usize = 28;
/// The place of the ID, which follows them.
pub(crate) const ID_PLACE: usize = 32;

pub(crate) fn contig_is_sound(contig: i32, facts: &Facts) -> bool {
    u32::try_from(contig).is_ok_and(|contig| contig < facts.contigs)
}

/// POS is zero-based; -1 is VCF's position 0, and 2147483647 would pass VCF's greatest.
pub(crate) fn pos_is_sound(pos: i32) -> bool {
    (-1..=2_147_483_646).contains(&pos)
}

pub(crate) fn rlen_is_sound(rlen: i32) -> bool {
    rlen >= 0
}

/// 7F800001 says missing; the end of vector and the reserved patterns have no meaning for a single number.
pub(crate) fn qual_is_sound(bits: u32) -> bool {
    !(0x7F80_0002..=0x7F80_0007).contains(&bits)
}

/// Four bytes at a place of which the caller knows that it is there.
fn word(s: &[u8], at: usize) -> u32 {
    u32::from_le_bytes([s[at], s[at + 1], s[at + 2], s[at + 3]])
}

/// Writes four bytes at a place of which the caller knows that it is there.
pub(crate) fn put_word(s: &mut [u8], at: usize, word: u32) {
    s[at..at + 4].copy_from_slice(&word.to_le_bytes());
}

/// l_shared, where both block lengths are there.
pub(crate) fn l_shared(s: &[u8]) -> Option<u32> {
    (s.len() >= 8).then(|| word(s, L_SHARED))
}

/// The place of the genotype block and the length of the record, all of which is lent.
pub(crate) fn frame(s: &[u8]) -> Result<(usize, usize), Refusal> {
    let Some(l_shared) = l_shared(s) else {
        return Err(Refusal::of(TOO_FEW_BYTES));
    };
    let border = 8 + u64::from(l_shared);
    let length = border + u64::from(word(s, L_INDIV));
    if length > MOST_BYTES {
        return Err(Refusal::of(TOO_LONG));
    }
    if (s.len() as u64) < length {
        return Err(Refusal::of(TOO_FEW_BYTES));
    }
    if l_shared < 24 {
        return Err(Refusal::at(PAST_BLOCK, border as usize));
    }
    Ok((border as usize, length as usize))
}

/// The fixed fields and the counts.
pub(crate) struct Fixed {
    pub contig: i32,
    pub pos: i32,
    pub rlen: i32,
    pub qual_bits: u32,
    pub alleles: u32,
    pub infos: u32,
    pub formats: u32,
    pub people: u32,
}

/// The fixed fields of a record that has its first 32 bytes, judged in byte order.
pub(crate) fn fixed(s: &[u8], facts: &Facts) -> Result<Fixed, Refusal> {
    let (in_site, in_genotypes) = (word(s, SITE_COUNTS), word(s, GENOTYPE_COUNTS));
    let fixed = Fixed {
        contig: word(s, CONTIG) as i32,
        pos: word(s, POS) as i32,
        rlen: word(s, RLEN) as i32,
        qual_bits: word(s, QUAL),
        alleles: in_site >> 16,
        infos: in_site & 0xFFFF,
        formats: in_genotypes >> 24,
        people: in_genotypes & 0xFF_FFFF,
    };
    let rules = [
        (CONTIG, contig_is_sound(fixed.contig, facts)),
        (POS, pos_is_sound(fixed.pos)),
        (RLEN, rlen_is_sound(fixed.rlen)),
        (QUAL, qual_is_sound(fixed.qual_bits)),
        (SITE_COUNTS, fixed.alleles >= 1),
        (GENOTYPE_COUNTS, fixed.people == facts.people && (fixed.people > 0 || fixed.formats == 0)),
    ];
    match rules.iter().find(|(_, sound)| !sound) {
        Some(&(place, _)) => Err(Refusal::at(FIXED_FIELD, place)),
        None => Ok(fixed),
    }
}

/// The count of alleles and the count of INFO fields in their one word.
pub(crate) fn site_counts(alleles: u32, infos: u32) -> u32 {
    alleles << 16 | infos
}

/// The count of FORMAT fields and the count of people in their one word.
pub(crate) fn genotype_counts(formats: u32, people: u32) -> u32 {
    formats << 24 | people
}
