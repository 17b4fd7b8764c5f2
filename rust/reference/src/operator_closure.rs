//! What a set says about one operator: the whole closure of the clauses and the
//! operator's precondition (document 02 §7).

use crate::answer::{ask, Answer};
use crate::clause::{self, Clause};
use crate::literal::{literals, Literal};
use crate::marks::{mark_bytes, put_mark};
use crate::task;

/// Leaves the closure in the marks: questions 1 to 9, 19, 13. The answer is how many
/// literals it holds. Bits and bytes after the literals' stay, and on a refusal all do.
pub fn operator_closure(
    image: &[u16],
    clauses: &[u16],
    operator: u16,
    marks: &mut [u8],
) -> Answer<usize> {
    let task = task::read(image)?;
    let clauses = clause::read(clauses, task.atoms())?;
    ask(19, usize::from(operator) < task.operators())?;
    ask(13, marks.len() >= mark_bytes(task.atoms()))?;
    let operator = task.operator(usize::from(operator));
    let held = whole_closure(task.atoms(), &clauses, operator.precondition);
    for (word, &held) in (0u16..).zip(&held) {
        put_mark(marks, Literal(word), held);
    }
    Ok(held.iter().filter(|&&held| held).count())
}

/// For each literal whether it is in the closure of the clauses and the literals.
/// Passes over all clauses until a pass changes nothing, whatever complements are met.
pub fn whole_closure(atoms: usize, clauses: &[Clause], words: &[u16]) -> Vec<bool> {
    let mut held = vec![false; 2 * atoms];
    for literal in literals(words) {
        held[literal.index()] = true;
    }
    let mut changed = true;
    while changed {
        changed = false;
        for clause in clauses {
            for literal in clause.literals() {
                if !held[literal.index()] && is_forced(clause, literal, &held) {
                    held[literal.index()] = true;
                    changed = true;
                }
            }
        }
    }
    held
}

/// Whether the complements of all other literals of the clause are held.
fn is_forced(clause: &Clause, literal: Literal, held: &[bool]) -> bool {
    let mut others = clause.literals().filter(|&other| other != literal);
    others.all(|other| held[other.complement().index()])
}
