//! Propagation: the closure of literals under a set of clauses. The one that does not
//! stop at a complement is in `operator_closure`, and shares nothing with this.

use crate::clause::Clause;
use crate::literal::{literals, Literal};

/// The closure of some clauses and literals. Propagation stops at the first
/// complement met, so a contradictory closure need not be complete.
#[derive(Clone, Debug)]
pub struct Closure {
    held: Vec<bool>,
    contradictory: bool,
}

impl Closure {
    /// The closure of the clauses and the literals.
    pub fn new(atoms: usize, clauses: &[Clause], words: &[u16]) -> Closure {
        let mut closure = Closure {
            held: vec![false; 2 * atoms],
            contradictory: false,
        };
        closure.add(words);
        closure.propagate(clauses);
        closure
    }

    /// The closure with more literals: closure(closure(C, L), L') is closure(C, L and L').
    pub fn extended(&self, clauses: &[Clause], words: &[u16]) -> Closure {
        let mut closure = self.clone();
        if !closure.contradictory && closure.add(words) {
            closure.propagate(clauses);
        }
        closure
    }

    pub fn is_contradictory(&self) -> bool {
        self.contradictory
    }

    pub fn holds(&self, literal: Literal) -> bool {
        self.held[literal.index()]
    }

    pub fn holds_all(&self, words: &[u16]) -> bool {
        literals(words).all(|literal| self.holds(literal))
    }

    /// For each literal whether it is in the closure.
    pub fn marks(&self) -> &[bool] {
        &self.held
    }

    /// Puts literals in and says whether one of them is new.
    fn add(&mut self, words: &[u16]) -> bool {
        let mut new = false;
        for literal in literals(words) {
            new |= !self.holds(literal);
            self.held[literal.index()] = true;
            self.contradictory |= self.holds(literal.complement());
        }
        new
    }

    /// Passes over all clauses until a pass changes nothing.
    fn propagate(&mut self, clauses: &[Clause]) {
        let mut changed = !self.contradictory;
        while changed {
            changed = false;
            for clause in clauses {
                let mut open = clause
                    .literals()
                    .filter(|literal| !self.holds(literal.complement()));
                match (open.next(), open.next()) {
                    // All complements are held: all its literals enter.
                    (None, _) => {
                        self.contradictory = true;
                        return;
                    }
                    (Some(last), None) if !self.holds(last) => {
                        self.held[last.index()] = true;
                        changed = true;
                    }
                    _ => {}
                }
            }
        }
    }
}
