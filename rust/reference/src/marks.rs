//! The mark buffer: a bit for each literal (document 02 §7).

use crate::literal::Literal;

/// The bytes that question 13 asks for: two bits for each atom.
pub const fn mark_bytes(atoms: usize) -> usize {
    atoms.div_ceil(4)
}

/// The bytes that it asks for with the most atoms.
pub const MOST_MARK_BYTES: usize = mark_bytes(1024);

/// Whether the literal is marked: literal l is bit l mod 8, lowest first, of byte l/8.
pub fn is_marked(marks: &[u8], literal: Literal) -> bool {
    let (byte, bit) = (literal.index() / 8, literal.index() % 8);
    marks[byte] & 1 << bit != 0
}

/// Marks the literal, or takes its mark away. All other bits stay.
pub fn put_mark(marks: &mut [u8], literal: Literal, marked: bool) {
    let (byte, bit) = (literal.index() / 8, literal.index() % 8);
    if marked {
        marks[byte] |= 1 << bit;
    } else {
        marks[byte] &= !(1 << bit);
    }
}
