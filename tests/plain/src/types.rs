//! The sixteen type codes in one fixed table, and what each may stand for. Code 0 is unused but for the bare 00, a
//! descriptor of code 0 and length 0, which is a whole value by itself.

/// What the low half of a descriptor gives: the width of an element in bytes (0 for an unused code) and the uses
/// that the type is allowed in.
pub(crate) struct Type {
    pub width: usize,
    pub uses: u8,
}

/// ID and alleles.
pub(crate) const TEXT: u8 = 1;
/// FILTER, GT, and the one integer of a key or a true length.
pub(crate) const INTEGER: u8 = 2;
/// INFO values, and FORMAT values other than GT's.
pub(crate) const ANY: u8 = 4;

/// Where a bare 00 says that the value is missing: FILTER, INFO and FORMAT, GT included. A key or true length is taken
/// as one integer and never as a value, so that 00 stays refused there.
pub(crate) const MAY_BE_BARE: u8 = INTEGER | ANY;

const UNUSED: Type = Type { width: 0, uses: 0 };

pub(crate) const TYPES: [Type; 16] = [
    UNUSED,
    Type { width: 1, uses: INTEGER | ANY },
    Type { width: 2, uses: INTEGER | ANY },
    Type { width: 4, uses: INTEGER | ANY },
    UNUSED,
    Type { width: 4, uses: ANY },
    UNUSED,
    Type { width: 1, uses: TEXT | ANY },
    UNUSED,
    UNUSED,
    UNUSED,
    UNUSED,
    UNUSED,
    UNUSED,
    UNUSED,
    UNUSED,
];

/// The width of a type code's element; 0 for an unused code and for a number that is no half byte.
pub(crate) fn width(code: u8) -> usize {
    TYPES.get(code as usize).map_or(0, |row| row.width)
}
