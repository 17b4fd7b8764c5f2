//! Literals and literal lists.

/// A literal: atom `a` true is the word `2a`, false is `2a + 1`.
#[derive(Clone, Copy, PartialEq, Eq, PartialOrd, Ord, Debug)]
pub struct Literal(pub u16);

/// The word that fills a clause row after its literals.
pub const FILL: u16 = u16::MAX;

impl Literal {
    pub fn new(atom: u16, negated: bool) -> Literal {
        Literal(2 * atom + u16::from(negated))
    }

    pub fn complement(self) -> Literal {
        Literal(self.0 ^ 1)
    }

    pub fn atom(self) -> usize {
        usize::from(self.0 / 2)
    }

    pub fn is_negated(self) -> bool {
        self.0 % 2 == 1
    }

    /// The literal's place in an array over all literals.
    pub fn index(self) -> usize {
        usize::from(self.0)
    }

    /// Whether the literal is true in a state of 0 and 1 bytes.
    pub fn is_true(self, state: &[u8]) -> bool {
        state[self.atom()] == u8::from(!self.is_negated())
    }
}

/// The words of a part of an image as literals.
pub fn literals(words: &[u16]) -> impl Iterator<Item = Literal> + '_ {
    words.iter().map(|&word| Literal(word))
}

/// Whether the words ascend strictly, stay below `2 * atoms` and name no atom
/// twice. As they ascend, only the last can be too high.
pub fn is_literal_list(words: &[u16], atoms: usize) -> bool {
    words
        .last()
        .is_none_or(|&last| usize::from(last) < 2 * atoms)
        && words.windows(2).all(|pair| pair[0] / 2 < pair[1] / 2)
}

/// Whether all literals are true in the state.
pub fn all_true(words: &[u16], state: &[u8]) -> bool {
    literals(words).all(|literal| literal.is_true(state))
}
