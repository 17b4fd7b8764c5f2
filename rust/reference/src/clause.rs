//! Clauses and clause rows: questions 8 and 9.

use crate::answer::{ask, ask_at, Answer};
use crate::literal::{is_literal_list, Literal, FILL};

/// A clause row: 1 to 3 literals as a literal list, filled with 65535.
/// Clauses compare as their rows do, word after word.
#[derive(Clone, Copy, PartialEq, Eq, PartialOrd, Ord, Debug)]
pub struct Clause([u16; 3]);

impl Clause {
    /// The clause of 1 to 3 ascending literals.
    pub fn new(literals: &[Literal]) -> Clause {
        let mut words = [FILL; 3];
        for (word, literal) in words.iter_mut().zip(literals) {
            *word = literal.0;
        }
        Clause(words)
    }

    pub fn words(&self) -> [u16; 3] {
        self.0
    }

    pub fn literals(&self) -> impl Iterator<Item = Literal> + '_ {
        self.0
            .iter()
            .filter(|&&word| word != FILL)
            .map(|&word| Literal(word))
    }

    /// The number of literals, never zero.
    pub fn size(&self) -> usize {
        self.literals().count()
    }

    pub fn contains(&self, literal: Literal) -> bool {
        self.0.contains(&literal.0)
    }

    pub fn has_atom(&self, atom: usize) -> bool {
        self.literals().any(|literal| literal.atom() == atom)
    }

    /// The clause with one literal more; it must have at most two.
    pub fn with(&self, literal: Literal) -> Clause {
        let mut words = self.0;
        debug_assert_eq!(words[2], FILL);
        words[2] = literal.0;
        words.sort_unstable();
        Clause(words)
    }

    /// The clauses made of some, but not all, of its literals.
    pub fn proper_parts(&self) -> impl Iterator<Item = Clause> {
        let [a, b, c] = self.0;
        let pairs = [[a, b], [a, c], [b, c]];
        let parts = [[a, FILL], [b, FILL], [c, FILL]].into_iter().chain(pairs);
        let count = [0, 2, 6][self.size() - 1];
        parts.take(count).map(|[x, y]| Clause([x, y, FILL]))
    }

    /// Whether one of its literals is true in the state.
    pub fn holds(&self, state: &[u8]) -> bool {
        self.literals().any(|literal| literal.is_true(state))
    }
}

/// Reads clause rows: questions 8 and 9.
pub fn read(words: &[u16], atoms: usize) -> Answer<Vec<Clause>> {
    ask(8, words.len().is_multiple_of(3) && words.len() <= 30_000)?;
    let mut clauses: Vec<Clause> = Vec::with_capacity(words.len() / 3);
    for (number, row) in words.chunks_exact(3).enumerate() {
        let clause = Clause([row[0], row[1], row[2]]);
        let above = clauses.last().is_none_or(|&last| last < clause);
        ask_at(9, is_row(row, atoms) && above, number, 0)?;
        clauses.push(clause);
    }
    Ok(clauses)
}

/// Reads a clause that stands alone: 8 (exactly one row) and 9.
pub fn read_one(words: &[u16], atoms: usize) -> Answer<Clause> {
    ask(8, words.len() == 3)?;
    Ok(read(words, atoms)?[0])
}

/// Whether the row is a literal list of 1 to 3 literals, then fill.
fn is_row(row: &[u16], atoms: usize) -> bool {
    let size = row.iter().take_while(|&&word| word != FILL).count();
    let (list, fill) = row.split_at(size);
    size > 0 && is_literal_list(list, atoms) && fill.iter().all(|&word| word == FILL)
}
