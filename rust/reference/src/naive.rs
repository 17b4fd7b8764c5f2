//! Closure, kept clauses and synthesis transcribed from document 01 and document
//! 02 §3 sentence by sentence, without any thought of speed. The tests compare the
//! quick modules with this one.

use std::collections::BTreeSet;

use crate::clause::Clause;
use crate::literal::{literals, Literal};
use crate::task::{Operator, Row, Task};

type Literals = BTreeSet<Literal>;
type Clauses = BTreeSet<Clause>;

/// The least set holding `from` and, for each clause all of whose literals but
/// one have their complement in it, that one.
pub fn closure(clauses: &Clauses, from: &Literals) -> Literals {
    let mut set = from.clone();
    loop {
        let before = set.len();
        for clause in clauses {
            for one in clause.literals() {
                let mut others = clause.literals().filter(|&other| other != one);
                if others.all(|other| set.contains(&other.complement())) {
                    set.insert(one);
                }
            }
        }
        if set.len() == before {
            return set;
        }
    }
}

pub fn is_contradictory(set: &Literals) -> bool {
    set.iter()
        .any(|literal| set.contains(&literal.complement()))
}

fn joined(parts: &[&[u16]]) -> Literals {
    parts.iter().flat_map(|part| literals(part)).collect()
}

/// Whether the clauses keep the clause under the operator.
pub fn keeps(clauses: &Clauses, clause: &Clause, operator: &Operator) -> bool {
    let c = operator.precondition;
    is_contradictory(&closure(clauses, &joined(&[c])))
        || clause.literals().all(|l| {
            operator
                .rows()
                .filter(|row| row.effect == l.complement())
                .all(|row| keeps_under_row(clauses, clause, operator, l, &row))
        })
}

/// The part for one literal and one row whose effect is its complement.
fn keeps_under_row(
    clauses: &Clauses,
    clause: &Clause,
    operator: &Operator,
    l: Literal,
    row: &Row,
) -> bool {
    let from = joined(&[operator.precondition, row.conditions]);
    let k = closure(clauses, &from);
    is_contradictory(&k)
        || !l.is_negated() && row_has_conditions_in(&k, operator, l)
        || clause
            .literals()
            .any(|m| m != l && becomes_true(clauses, operator, &k, m))
}

/// Whether `m` is made true, or lies in `k` and every row with its complement
/// makes the closure contradictory.
fn becomes_true(clauses: &Clauses, operator: &Operator, k: &Literals, m: Literal) -> bool {
    is_made_true(clauses, operator, k, m)
        || k.contains(&m) && all_contradictory(clauses, operator, k, m.complement())
}

/// Whether `m` is the effect of a row whose conditions all lie in `k`; a negative
/// one only if every add row of its atom makes the closure contradictory.
fn is_made_true(clauses: &Clauses, operator: &Operator, k: &Literals, m: Literal) -> bool {
    let added = m.complement();
    row_has_conditions_in(k, operator, m)
        && (!m.is_negated() || all_contradictory(clauses, operator, k, added))
}

/// Whether some row with the effect has its conditions in `k`.
fn row_has_conditions_in(k: &Literals, operator: &Operator, effect: Literal) -> bool {
    operator
        .rows()
        .any(|row| row.effect == effect && joined(&[row.conditions]).is_subset(k))
}

/// Whether every row with the effect, its conditions added to `k`, makes the
/// closure contradictory.
fn all_contradictory(
    clauses: &Clauses,
    operator: &Operator,
    k: &Literals,
    effect: Literal,
) -> bool {
    operator
        .rows()
        .filter(|row| row.effect == effect)
        .all(|row| is_contradictory(&closure(clauses, &(k | &joined(&[row.conditions])))))
}

/// The sets C0, C1, ... up to the one that is the finding; their number is the
/// number of rounds.
pub fn synthesis(task: &Task, n: usize) -> Vec<Clauses> {
    let initial = task.initial_state();
    let c0 = (0..task.atoms() as u16)
        .flat_map(|atom| [Literal::new(atom, false), Literal::new(atom, true)])
        .filter(|literal| literal.is_true(&initial))
        .map(|literal| Clause::new(&[literal]))
        .collect();
    let mut sets = vec![c0];
    while let Some(next) = next_set(task, &sets[sets.len() - 1], n) {
        sets.push(next);
    }
    sets
}

/// The set after a round, or `None` if no clause fails.
fn next_set(task: &Task, set: &Clauses, n: usize) -> Option<Clauses> {
    let mut failing = Clauses::new();
    let mut added = Clauses::new();
    for clause in set {
        let fails = |operator: &Operator| !keeps(set, clause, operator);
        for operator in task.all_operators().filter(fails) {
            failing.insert(*clause);
            if clause.size() < n {
                let weakened = guaranteed(task, set, &operator)
                    .into_iter()
                    .filter(|literal| !clause.has_atom(literal.atom()))
                    .map(|literal| clause.with(literal));
                added.extend(weakened);
            }
        }
    }
    let survivors: Clauses = set.difference(&failing).copied().collect();
    let next = &survivors | &added;
    (!failing.is_empty()).then(|| without_containing(&next))
}

/// The set without every clause that strictly contains another.
fn without_containing(set: &Clauses) -> Clauses {
    let contains_another = |clause: &Clause| {
        let inside = |other: &Clause| other.literals().all(|literal| clause.contains(literal));
        set.iter().any(|other| other != clause && inside(other))
    };
    let minimal = set.iter().filter(|clause| !contains_another(clause));
    minimal.copied().collect()
}

/// The literals guaranteed by the operator.
fn guaranteed(task: &Task, set: &Clauses, operator: &Operator) -> Vec<Literal> {
    let k = closure(set, &joined(&[operator.precondition]));
    (0..2 * task.atoms() as u16)
        .map(Literal)
        .filter(|&l| becomes_true(set, operator, &k, l))
        .collect()
}
