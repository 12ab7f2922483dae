//! The calls of the proved library. Every `unsafe` of the crate stands here, each in a function that is safe to call.
//!
//! What makes them sound is the same each time. A pointer and a length are those of one Rust slice, which is alive and
//! initialised during the call and, where the library writes, borrowed by nobody else; an empty slice has a pointer
//! that isn't null. The library is proved to stay within what it is lent; it keeps no pointer, and any bits that it
//! writes are a number of the slice's type. A comment at each call says what is lent there.

#![allow(unsafe_code)]

use crate::{Facts, Kind, Names, Refusal};

/// The numbers of a builder's state.
pub const STATE: usize = 266;

extern "C" {
    fn sikalumdo_read(
        s: *const u8,
        s_len: usize,
        strings: u32,
        contigs: u32,
        people: u32,
        gt: u32,
        out: *mut u64,
        out_len: usize,
    ) -> u64;
    fn sikalumdo_vcf_pos(pos: u32) -> i32;
    fn sikalumdo_fetch(
        s: *const u8,
        s_len: usize,
        strings: u32,
        contigs: u32,
        people: u32,
        gt: u32,
        kind: u32,
        number: u32,
        out: *mut u64,
        out_len: usize,
    ) -> u64;
    fn sikalumdo_field_of(
        s: *const u8,
        s_len: usize,
        site: *const u64,
        site_len: usize,
        kind: u32,
        number: u32,
        out: *mut u64,
        out_len: usize,
    ) -> u64;
    fn sikalumdo_shown(part: *const u8, part_len: usize, code: u8, index: usize) -> u64;
    fn sikalumdo_tally(
        s: *const u8,
        s_len: usize,
        strings: u32,
        contigs: u32,
        people: u32,
        gt: u32,
        out: *mut u64,
        out_len: usize,
    ) -> u64;
    fn sikalumdo_choose(
        s: *const u8,
        s_len: usize,
        strings: u32,
        contigs: u32,
        people: u32,
        gt: u32,
        choice: *const u32,
        choice_len: usize,
        buf: *mut u8,
        buf_len: usize,
    ) -> u64;
    fn sikalumdo_vcf_line(
        s: *const u8,
        s_len: usize,
        strings: u32,
        contigs: u32,
        people: u32,
        gt: u32,
        string_text: *const u8,
        string_text_len: usize,
        string_ends: *const u32,
        string_ends_len: usize,
        contig_text: *const u8,
        contig_text_len: usize,
        contig_ends: *const u32,
        contig_ends_len: usize,
        buf: *mut u8,
        buf_len: usize,
    ) -> u64;
    fn sikalumdo_first_pair(s: *const u8, s_len: usize, strings: u32, contigs: u32, people: u32, gt: u32) -> u64;
    fn sikalumdo_pair(s: *const u8, s_len: usize, at: usize, out: *mut u64, out_len: usize) -> u64;
    fn sikalumdo_fresh(state: *mut u32, state_len: usize) -> u64;
    fn sikalumdo_begin(
        state: *mut u32,
        state_len: usize,
        buf: *mut u8,
        buf_len: usize,
        strings: u32,
        contigs: u32,
        people: u32,
        gt: u32,
        chrom: i32,
        pos: i32,
        rlen: i32,
        qual: u32,
    ) -> u64;
    fn sikalumdo_end(state: *mut u32, state_len: usize, buf: *mut u8, buf_len: usize) -> u64;
}

/// Declares turns that lend a list after the state and the buffer, each as a safe function of the same name without
/// the prefix. They differ in the numbers that stand before the list and in the list's elements.
macro_rules! list_turns {
    ($($name:ident = $export:ident($($number:ident: $form:ty),*; $element:ty);)*) => {
        extern "C" {
            $(fn $export(
                state: *mut u32, state_len: usize, buf: *mut u8, buf_len: usize,
                $($number: $form,)* list: *const $element, list_len: usize,
            ) -> u64;)*
        }
        $(pub fn $name(
            state: &mut [u32; STATE], buf: &mut [u8], $($number: $form,)* list: &[$element],
        ) -> Result<u32, Refusal> {
            // SAFETY: lends the state and the buffer to be written and the list to be read, three slices apart.
            opened(unsafe {
                $export(
                    state.as_mut_ptr(), STATE, buf.as_mut_ptr(), buf.len(), $($number,)* list.as_ptr(), list.len(),
                )
            })
        })*
    };
}

list_turns! {
    id = sikalumdo_id(; u8);
    allele = sikalumdo_allele(; u8);
    filter = sikalumdo_filter(; i32);
    info_integers = sikalumdo_info_integers(key: i32; i32);
    info_floats = sikalumdo_info_floats(key: i32; u32);
    info_text = sikalumdo_info_text(key: i32; u8);
    format_integers = sikalumdo_format_integers(key: i32, len: u32; i32);
    format_floats = sikalumdo_format_floats(key: i32, len: u32; u32);
    format_text = sikalumdo_format_text(key: i32, len: u32; u8);
}

/// An answer is a refusal's number and place, high half and low, or the number 0 and what was asked for.
fn opened(answer: u64) -> Result<u32, Refusal> {
    let (number, low) = ((answer >> 32) as u32, answer as u32);
    match number {
        0 => Ok(low),
        number => Err(Refusal { number, place: low }),
    }
}

pub fn read(s: &[u8], facts: &Facts) -> Result<[u64; 13], Refusal> {
    let mut out = [0; 13];
    let Facts { strings, contigs, people, gt } = *facts;
    // SAFETY: lends the record to be read and this function's own 13 numbers to be written.
    opened(unsafe { sikalumdo_read(s.as_ptr(), s.len(), strings, contigs, people, gt, out.as_mut_ptr(), out.len()) })?;
    Ok(out)
}

/// The VCF position, by the 32 bits of POS as reading told them.
pub fn vcf_pos(pos: u32) -> i32 {
    // SAFETY: lends nothing.
    unsafe { sikalumdo_vcf_pos(pos) }
}

/// The bytes of the part, and key, type, length, place and stop.
pub fn fetch(s: &[u8], facts: &Facts, kind: Kind, number: u32) -> Result<(u32, [u64; 5]), Refusal> {
    let mut out = [0; 5];
    let Facts { strings, contigs, people, gt } = *facts;
    let Kind(kind) = kind;
    // SAFETY: lends the record to be read and this function's own five numbers to be written.
    let bytes = opened(unsafe {
        sikalumdo_fetch(s.as_ptr(), s.len(), strings, contigs, people, gt, kind, number, out.as_mut_ptr(), out.len())
    })?;
    Ok((bytes, out))
}

/// The same of a record that was read, by the numbers that reading told.
pub fn field_of(s: &[u8], site: &[u64; 13], kind: Kind, number: u32) -> Result<(u32, [u64; 5]), Refusal> {
    let mut out = [0; 5];
    let Kind(kind) = kind;
    // SAFETY: lends the record and the site's numbers to be read and this function's own five numbers to be written.
    let bytes = opened(unsafe {
        sikalumdo_field_of(s.as_ptr(), s.len(), site.as_ptr(), site.len(), kind, number, out.as_mut_ptr(), out.len())
    })?;
    Ok((bytes, out))
}

pub fn shown(part: &[u8], code: u8, index: usize) -> Result<u32, Refusal> {
    // SAFETY: lends the part to be read.
    opened(unsafe { sikalumdo_shown(part.as_ptr(), part.len(), code, index) })
}

pub fn tally(s: &[u8], facts: &Facts) -> Result<[u64; 68], Refusal> {
    let mut out = [0; 68];
    let Facts { strings, contigs, people, gt } = *facts;
    // SAFETY: lends the record to be read and this function's own 68 numbers to be written.
    opened(unsafe { sikalumdo_tally(s.as_ptr(), s.len(), strings, contigs, people, gt, out.as_mut_ptr(), out.len()) })?;
    Ok(out)
}

pub fn choose(s: &[u8], facts: &Facts, choice: &[u32], buf: &mut [u8]) -> Result<u32, Refusal> {
    let Facts { strings, contigs, people, gt } = *facts;
    // SAFETY: lends the record and the choice to be read and the buffer, apart from both, to be written.
    opened(unsafe {
        sikalumdo_choose(
            s.as_ptr(),
            s.len(),
            strings,
            contigs,
            people,
            gt,
            choice.as_ptr(),
            choice.len(),
            buf.as_mut_ptr(),
            buf.len(),
        )
    })
}

pub fn vcf_line(
    s: &[u8],
    facts: &Facts,
    strings: Names<'_>,
    contigs: Names<'_>,
    buf: &mut [u8],
) -> Result<u32, Refusal> {
    // SAFETY: lends the record and both lists of names to be read and the buffer, apart from all, to be written.
    opened(unsafe {
        sikalumdo_vcf_line(
            s.as_ptr(),
            s.len(),
            facts.strings,
            facts.contigs,
            facts.people,
            facts.gt,
            strings.text.as_ptr(),
            strings.text.len(),
            strings.ends.as_ptr(),
            strings.ends.len(),
            contigs.text.as_ptr(),
            contigs.text.len(),
            contigs.ends.as_ptr(),
            contigs.ends.len(),
            buf.as_mut_ptr(),
            buf.len(),
        )
    })
}

pub fn first_pair(s: &[u8], facts: &Facts) -> Result<u32, Refusal> {
    let Facts { strings, contigs, people, gt } = *facts;
    // SAFETY: lends the record to be read.
    opened(unsafe { sikalumdo_first_pair(s.as_ptr(), s.len(), strings, contigs, people, gt) })
}

/// The bytes of the part, and key, type, length, place and the next pair's place.
pub fn pair(s: &[u8], at: usize) -> Result<(u32, [u64; 5]), Refusal> {
    let mut out = [0; 5];
    // SAFETY: lends the record to be read and this function's own five numbers to be written.
    let bytes = opened(unsafe { sikalumdo_pair(s.as_ptr(), s.len(), at, out.as_mut_ptr(), out.len()) })?;
    Ok((bytes, out))
}

pub fn fresh() -> [u32; STATE] {
    let mut state = [0; STATE];
    // SAFETY: lends this function's own state to be written. A state of that many numbers is never refused.
    unsafe { sikalumdo_fresh(state.as_mut_ptr(), STATE) };
    state
}

pub fn begin(
    state: &mut [u32; STATE],
    buf: &mut [u8],
    facts: &Facts,
    [chrom, pos, rlen]: [i32; 3],
    qual: u32,
) -> Result<u32, Refusal> {
    let Facts { strings, contigs, people, gt } = *facts;
    // SAFETY: lends the state and the buffer, two slices apart, to be written.
    opened(unsafe {
        sikalumdo_begin(
            state.as_mut_ptr(),
            STATE,
            buf.as_mut_ptr(),
            buf.len(),
            strings,
            contigs,
            people,
            gt,
            chrom,
            pos,
            rlen,
            qual,
        )
    })
}

pub fn end(state: &mut [u32; STATE], buf: &mut [u8]) -> Result<u32, Refusal> {
    // SAFETY: lends the state and the buffer, two slices apart, to be written.
    opened(unsafe { sikalumdo_end(state.as_mut_ptr(), STATE, buf.as_mut_ptr(), buf.len()) })
}
