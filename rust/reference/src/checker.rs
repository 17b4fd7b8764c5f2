//! The checker: every clause holds initially and is kept under every operator.

use crate::answer::{ask, ask_at, Answer};
use crate::clause::{self, Clause};
use crate::kept::Judge;
use crate::marks::mark_bytes;
use crate::task::{self, Task};

/// Checks clause rows: questions 1 to 9, 13, 10, 11. Refusal 10 names the
/// lowest false clause; 11 the lowest clause that is not kept, and under it the
/// lowest operator (document 02 §2).
pub fn check(image: &[u16], clauses: &[u16], marks: &mut [u8]) -> Answer<()> {
    accepted(image, clauses, marks).map(|_| ())
}

/// The task and the clauses, if the checker accepts them.
pub(crate) fn accepted<'a>(
    image: &'a [u16],
    clauses: &[u16],
    marks: &mut [u8],
) -> Answer<(Task<'a>, Vec<Clause>)> {
    let task = task::read(image)?;
    let clauses = clause::read(clauses, task.atoms())?;
    ask(13, marks.len() >= mark_bytes(task.atoms()))?;
    let initial = task.initial_state();
    for (row, clause) in clauses.iter().enumerate() {
        ask_at(10, clause.holds(&initial), row, 0)?;
    }
    if let Some((clause, operator)) = lowest_failure(&task, &clauses) {
        ask_at(11, false, clause, operator)?;
    }
    Ok((task, clauses))
}

/// The lowest clause that is not kept, and its lowest operator. Once a clause
/// has failed, only those below it are judged further.
fn lowest_failure(task: &Task, clauses: &[Clause]) -> Option<(usize, usize)> {
    let mut lowest = None;
    let mut judged = clauses.len();
    for operator in 0..task.operators() {
        if judged == 0 {
            break;
        }
        let failing = Judge::new(task, clauses, operator).failing(&clauses[..judged]);
        if let Some(&clause) = failing.first() {
            judged = clause;
            lowest = Some((clause, operator));
        }
    }
    lowest
}
