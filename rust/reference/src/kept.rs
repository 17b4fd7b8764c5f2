//! Kept clauses: what one operator does to clauses, given a set C. Adds beat
//! deletes (document 02 §3).

use crate::answer::{ask, Answer};
use crate::clause::{self, Clause};
use crate::closure::Closure;
use crate::marks::mark_bytes;
use crate::task::{self, Operator, Row, Task};

/// One clause under one operator: questions 1 to 9, 8 and 9 for the clause
/// alone, 19, 13. The answer is whether the clauses keep it.
pub fn kept(
    image: &[u16],
    clauses: &[u16],
    clause: &[u16],
    operator: u16,
    marks: &mut [u8],
) -> Answer<bool> {
    let task = task::read(image)?;
    let clauses = clause::read(clauses, task.atoms())?;
    let clause = clause::read_one(clause, task.atoms())?;
    ask(19, usize::from(operator) < task.operators())?;
    ask(13, marks.len() >= mark_bytes(task.atoms()))?;
    let judge = Judge::new(&task, &clauses, usize::from(operator));
    Ok(judge.failing(&[clause]).is_empty())
}

/// A set of clauses and an operator, with the closure of the set and the
/// operator's precondition.
pub struct Judge<'a> {
    clauses: &'a [Clause],
    operator: Operator<'a>,
    base: Closure,
}

impl<'a> Judge<'a> {
    pub fn new(task: &Task<'a>, clauses: &'a [Clause], operator: usize) -> Judge<'a> {
        let operator = task.operator(operator);
        let base = Closure::new(task.atoms(), clauses, operator.precondition);
        Judge {
            clauses,
            operator,
            base,
        }
    }

    /// The places of the judged clauses that are not kept, ascending.
    pub fn failing(&self, judged: &[Clause]) -> Vec<usize> {
        if self.base.is_contradictory() {
            return Vec::new();
        }
        let guaranteed = self.guaranteed();
        let mut fails = vec![false; judged.len()];
        for row in self.operator.rows() {
            self.judge_row(&row, judged, &guaranteed, &mut fails);
        }
        (0..judged.len()).filter(|&place| fails[place]).collect()
    }

    /// Marks the judged clauses that the row can make false: those with the
    /// literal it falsifies and none that is guaranteed. That literal itself is
    /// guaranteed only if it is positive and an add row has its conditions in K.
    fn judge_row(&self, row: &Row, judged: &[Clause], guaranteed: &[bool], fails: &mut [bool]) {
        let falsified = row.effect.complement();
        if !judged.iter().any(|clause| clause.contains(falsified)) {
            return;
        }
        let own;
        let after = if self.base.holds_all(row.conditions) {
            guaranteed
        } else {
            let closure = self.base.extended(self.clauses, row.conditions);
            if closure.is_contradictory() {
                return;
            }
            own = self.guaranteed_from(&closure);
            &own
        };
        for (clause, fails) in judged.iter().zip(fails) {
            *fails |= clause.contains(falsified) && !has_marked(clause, after);
        }
    }

    /// For each literal whether the operator guarantees it. The closure of the
    /// set and the precondition must not be contradictory.
    pub fn guaranteed(&self) -> Vec<bool> {
        self.guaranteed_from(&self.base)
    }

    /// For each literal whether it is true after the step in all states that
    /// satisfy the closure. A negative one is in it or made true by a delete row
    /// with its conditions in it, and no add row of its atom can fire. A positive
    /// one is made true by an add row with its conditions in it, or is in it and no
    /// delete row of its atom can fire.
    fn guaranteed_from(&self, closure: &Closure) -> Vec<bool> {
        let rows = || self.operator.rows();
        let fires = |row: &Row| closure.holds_all(row.conditions);
        let mut guaranteed = closure.marks().to_vec();
        for row in rows().filter(|row| row.effect.is_negated() && fires(row)) {
            guaranteed[row.effect.index()] = true;
        }
        for row in rows() {
            let falsified = row.effect.complement().index();
            if guaranteed[falsified] && self.can_fire(&row, closure) {
                guaranteed[falsified] = false;
            }
        }
        for row in rows().filter(|row| !row.effect.is_negated() && fires(row)) {
            guaranteed[row.effect.index()] = true;
        }
        guaranteed
    }

    /// Whether the closure with the row's conditions is free of contradiction.
    fn can_fire(&self, row: &Row, closure: &Closure) -> bool {
        let extended = closure.extended(self.clauses, row.conditions);
        !extended.is_contradictory()
    }
}

/// Whether one of the clause's literals is marked.
fn has_marked(clause: &Clause, marks: &[bool]) -> bool {
    clause.literals().any(|literal| marks[literal.index()])
}
