//! Synthesis: weakening the initial one-literal clauses until all are kept.

use std::collections::BTreeSet;

use crate::answer::{ask, Answer, Finding};
use crate::clause::Clause;
use crate::kept::Judge;
use crate::literal::Literal;
use crate::marks::mark_bytes;
use crate::task::{self, Task};

/// The most rows a clause buffer counts for.
pub const MOST_ROWS: usize = 10_000;

/// A finished synthesis; `largest` is the size of its largest set.
#[derive(Clone, PartialEq, Eq, Debug)]
pub struct Synthesis {
    pub clauses: Vec<Clause>,
    pub rounds: usize,
    pub largest: usize,
}

/// Fills the clause buffer with the set found: questions 1 to 7, 12 to 15.
/// Refusals 14 and 15 zero the buffer; a finding zeroes what lies after it.
pub fn synthesize(
    image: &[u16],
    n: u16,
    limit: u16,
    clauses: &mut [u16],
    work: &mut [u16],
    marks: &mut [u8],
) -> Answer<Finding> {
    let task = task::read(image)?;
    ask(12, (1..=3).contains(&n) && limit >= 1)?;
    let lent = marks.len() >= mark_bytes(task.atoms()) && work.len() >= clauses.len();
    ask(13, lent)?;
    let rows = (clauses.len() / 3).min(MOST_ROWS);
    let result = run(&task, usize::from(n), usize::from(limit), rows);
    clauses.fill(0);
    let found = result?;
    for (row, clause) in clauses.chunks_exact_mut(3).zip(&found.clauses) {
        row.copy_from_slice(&clause.words());
    }
    Ok(Finding {
        rows: found.clauses.len(),
        rounds: found.rounds,
    })
}

/// The synthesis itself with clauses of up to `n` literals: questions 14 and 15.
pub fn run(task: &Task, n: usize, limit: usize, rows: usize) -> Answer<Synthesis> {
    let mut clauses = initial_set(task);
    let mut largest = clauses.len();
    ask(14, largest <= rows)?;
    for rounds in 1.. {
        let failures = test(task, &clauses, n);
        if failures.iter().all(|failure| failure.failing.is_empty()) {
            return Ok(Synthesis {
                clauses,
                rounds,
                largest,
            });
        }
        ask(15, rounds < limit)?;
        let next = next_set(&clauses, &failures, n, rows);
        ask(14, next.len() <= rows)?;
        largest = largest.max(next.len());
        clauses = next.into_iter().collect();
    }
    unreachable!("a round either finishes or is refused at the limit")
}

/// C0: the one-literal clauses true in the initial state.
fn initial_set(task: &Task) -> Vec<Clause> {
    let initial = task.initial_state();
    (0u16..)
        .zip(&initial)
        .map(|(atom, &byte)| Clause::new(&[Literal::new(atom, byte == 0)]))
        .collect()
}

/// The clauses that fail under one operator and the literals it guarantees.
struct Failure {
    failing: Vec<usize>,
    guaranteed: Vec<Literal>,
}

/// One round: all clauses against themselves, under every operator.
fn test(task: &Task, clauses: &[Clause], n: usize) -> Vec<Failure> {
    let failure = |operator| {
        let judge = Judge::new(task, clauses, operator);
        let failing = judge.failing(clauses);
        let weakens = failing.iter().any(|&place| clauses[place].size() < n);
        let guaranteed = if weakens {
            let marks = judge.guaranteed();
            let held = (0u16..).zip(marks).filter(|&(_, mark)| mark);
            held.map(|(word, _)| Literal(word)).collect()
        } else {
            Vec::new()
        };
        Failure {
            failing,
            guaranteed,
        }
    };
    (0..task.operators()).map(failure).collect()
}

/// The next set, or some more than `rows` of its clauses if it has as many.
///
/// The set tested is an antichain, so no weakened clause is contained in a
/// survivor; entering the weakened clauses by rising size, nothing that has
/// entered is ever dropped again.
fn next_set(clauses: &[Clause], failures: &[Failure], n: usize, rows: usize) -> BTreeSet<Clause> {
    let mut survives = vec![true; clauses.len()];
    for &place in failures.iter().flat_map(|failure| &failure.failing) {
        survives[place] = false;
    }
    let survivors = clauses.iter().zip(survives).filter(|&(_, stays)| stays);
    let mut next: BTreeSet<Clause> = survivors.map(|(&clause, _)| clause).collect();
    for size in 1..n {
        for failure in failures {
            let failing = failure.failing.iter().map(|&place| &clauses[place]);
            for clause in failing.filter(|clause| clause.size() == size) {
                add_weakened(clause, &failure.guaranteed, &mut next);
                if next.len() > rows {
                    return next;
                }
            }
        }
    }
    next
}

/// Adds the clause with each guaranteed literal of a new atom, unless a part
/// of that is in the set.
fn add_weakened(clause: &Clause, guaranteed: &[Literal], next: &mut BTreeSet<Clause>) {
    for &literal in guaranteed {
        if clause.has_atom(literal.atom()) {
            continue;
        }
        let weakened = clause.with(literal);
        if !weakened.proper_parts().any(|part| next.contains(&part)) {
            next.insert(weakened);
        }
    }
}
