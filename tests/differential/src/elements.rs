//! Elements made at random: vectors of the five types as their shown 32 bits, and how a type's bytes hold them.

use crate::random::Random;

/// The marks of type 3, as which those of any integer width are shown.
pub const MISSING: u32 = 0x8000_0000;
pub const END: u32 = 0x8000_0001;
/// The marks of floats.
pub const FLOAT_MISSING: u32 = 0x7F80_0001;
pub const FLOAT_END: u32 = 0x7F80_0002;

/// The type codes that values have.
pub const CODES: [u8; 5] = [1, 2, 3, 5, 7];

pub fn width(code: u8) -> usize {
    match code {
        1 | 7 => 1,
        2 => 2,
        _ => 4,
    }
}

/// The end of vector of a type, as it is shown.
pub fn end_of(code: u8) -> u32 {
    match code {
        5 => FLOAT_END,
        7 => 0,
        _ => END,
    }
}

/// The least and the greatest number of an integer type that is neither a mark nor reserved.
pub fn limits(code: u8) -> (i64, i64) {
    let half = 1i64 << (8 * width(code) - 1);
    (8 - half, half - 1)
}

/// An element of a type that is sound wherever no rule but the type's holds, and no end of vector.
pub fn element(random: &mut Random, code: u8) -> u32 {
    match code {
        5 => float(random),
        7 => text_byte(random),
        _ => integer(random, code),
    }
}

/// The last numbers that a width holds and the first that it doesn't.
const EDGES: [i64; 8] = [-120, -121, 127, 128, -32_760, -32_761, 32_767, 32_768];

fn integer(random: &mut Random, code: u8) -> u32 {
    let (least, most) = limits(code);
    match random.below(12) {
        0 => MISSING,
        1 => least as u32,
        2 => most as u32,
        3 => random.within(-3, 3) as u32,
        4..=6 => random.pick(&EDGES).clamp(least, most) as u32,
        _ => random.within(least, most) as u32,
    }
}

fn float(random: &mut Random) -> u32 {
    let bits = match random.below(8) {
        0 => FLOAT_MISSING,
        1 => random.pick(&[0x7F80_0000, 0x7F80_0008, 0xFF80_0002, 0x7FC0_0000, 0, 0x8000_0001]),
        _ => random.next() as u32,
    };
    if (FLOAT_END..=0x7F80_0007).contains(&bits) {
        FLOAT_MISSING
    } else {
        bits
    }
}

fn text_byte(random: &mut Random) -> u32 {
    match random.below(10) {
        0 => random.within(1, 255) as u32,
        _ => random.within(0x20, 0x7E) as u32,
    }
}

/// A sound vector: elements, then now and then ends of vector.
pub fn vector(random: &mut Random, code: u8, len: usize) -> Vec<u32> {
    let ends = if random.one_in(4) { random.below(len + 1) } else { 0 };
    let mut vector: Vec<u32> = (ends..len).map(|_| element(random, code)).collect();
    vector.resize(len, end_of(code));
    vector
}

/// A sound vector of GT codes: some slots, all or none of them, then ends of vector.
pub fn genotype(random: &mut Random, code: u8, len: usize, alleles: usize) -> Vec<u32> {
    let slots = if random.one_in(4) { random.below(len + 1) } else { len };
    let most = limits(code).1.min(2 * alleles as i64 + 1);
    let mut vector: Vec<u32> = (0..slots)
        .map(|_| match random.below(12) {
            0 => MISSING,
            1 => random.within(0, 1) as u32,
            2 => most as u32,
            _ => random.within(0, most) as u32,
        })
        .collect();
    vector.resize(len, END);
    vector
}

/// Appends the bytes of elements of a type that they fit.
pub fn pack(bytes: &mut Vec<u8>, code: u8, shown: &[u32]) {
    for &bits in shown {
        let mark = matches!(code, 1 | 2) && (bits == MISSING || bits == END);
        // A narrow mark has the width's top bit and the mark's lowest.
        let bits = if mark { 1 << (8 * width(code) - 1) | (bits & 1) } else { bits };
        bytes.extend(&bits.to_le_bytes()[..width(code)]);
    }
}

/// The type that the widest integer takes which is no mark.
pub fn tight_code(shown: &[u32]) -> u8 {
    let numbers = || shown.iter().filter(|&&bits| bits != MISSING && bits != END).map(|&bits| i64::from(bits as i32));
    let fits = |code| numbers().all(|number| (limits(code).0..=limits(code).1).contains(&number));
    [1, 2].into_iter().find(|&code| fits(code)).unwrap_or(3)
}
