//! Sets that the checker refuses for more than one reason, with all reasons.

use inputs::{clauses, random, Rng};
use reference::clause::{self, Clause};
use reference::kept::Judge;
use reference::task::{self, Task};
use reference::Refusal;

use crate::Synthesized;

/// A task and a right set, with every clause that is false initially and every
/// operator under which a clause is not kept.
#[derive(Debug)]
pub struct Failing {
    pub image: Vec<u16>,
    pub words: Vec<u16>,
    /// The places of the clauses that are false initially.
    false_clauses: Vec<usize>,
    /// For each clause the operators under which it is not kept.
    operators: Vec<Vec<usize>>,
}

impl Failing {
    /// Judges every clause, and each under every operator.
    fn new(image: Vec<u16>, words: Vec<u16>) -> Failing {
        let task = task::read(&image).expect("a right image");
        let set = clause::read(&words, task.atoms()).expect("right rows");
        let initial = task.initial_state();
        let false_clauses = places(&set, |clause| !clause.holds(&initial));
        let operators = failing_operators(&task, &set);
        Failing {
            image,
            words,
            false_clauses,
            operators,
        }
    }

    /// A set with two or more clauses that are false initially.
    pub fn several_false(rng: &mut Rng) -> Failing {
        loop {
            let image = random::small(rng).image();
            let atoms = usize::from(image[0]);
            let rows: Vec<_> = (0..rng.between(3, 9))
                .map(|_| clauses::random_row(rng, atoms))
                .collect();
            let failing = Failing::new(image, clauses::words(&rows));
            if failing.false_clauses.len() > 1 {
                return failing;
            }
        }
    }

    /// A set that is true initially, with two or more clauses that are not kept,
    /// the lowest of them under two or more operators.
    pub fn several_not_kept(rng: &mut Rng) -> Failing {
        loop {
            let (image, words) = if rng.chance(50) {
                true_rows(rng)
            } else {
                changed_rows(rng)
            };
            let failing = Failing::new(image, words);
            let mut not_kept = failing.operators.iter().filter(|under| !under.is_empty());
            if not_kept.next().is_some_and(|under| under.len() > 1) && not_kept.next().is_some() {
                return failing;
            }
        }
    }

    /// What document 02 §2 asks the checker to name.
    pub fn lowest(&self) -> Refusal {
        let refusal = |number, first: usize, second: usize| Refusal {
            number,
            first: first as u64,
            second: second as u64,
        };
        if let Some(&clause) = self.false_clauses.first() {
            return refusal(10, clause, 0);
        }
        let not_kept = self.operators.iter().position(|under| !under.is_empty());
        let clause = not_kept.expect("a clause that fails");
        refusal(11, clause, self.operators[clause][0])
    }

    /// The places by another order: the lowest operator under which some clause
    /// is not kept, and then the lowest such clause.
    pub fn operator_first(&self) -> (usize, usize) {
        let pairs = self
            .operators
            .iter()
            .enumerate()
            .flat_map(|(clause, under)| under.iter().map(move |&operator| (operator, clause)));
        let (operator, clause) = pairs.min().expect("a clause that fails");
        (clause, operator)
    }
}

fn places(set: &[Clause], test: impl Fn(&Clause) -> bool) -> Vec<usize> {
    (0..set.len()).filter(|&place| test(&set[place])).collect()
}

fn failing_operators(task: &Task, set: &[Clause]) -> Vec<Vec<usize>> {
    let mut operators = vec![Vec::new(); set.len()];
    for operator in 0..task.operators() {
        for clause in Judge::new(task, set, operator).failing(set) {
            operators[clause].push(operator);
        }
    }
    operators
}

/// A small task and random rows, all true initially.
fn true_rows(rng: &mut Rng) -> (Vec<u16>, Vec<u16>) {
    let image = random::small(rng).image();
    let initial = task::read(&image).expect("a right image").initial_state();
    let rows: Vec<_> = (0..rng.between(2, 9))
        .map(|_| clauses::true_row(rng, &initial))
        .collect();
    (image, clauses::words(&rows))
}

/// A task and the set that synthesis finds, changed at some places; clauses that
/// are false initially are left out.
fn changed_rows(rng: &mut Rng) -> (Vec<u16>, Vec<u16>) {
    let source = Synthesized::random(rng);
    let mut rows = source.rows.clone();
    for _ in 0..rng.between(2, 5) {
        clauses::mutate(rng, source.atoms(), &mut rows);
    }
    let initial = source.initial();
    let set = clause::read(&clauses::words(&rows), source.atoms()).expect("right rows");
    let held = set.iter().filter(|clause| clause.holds(&initial));
    let words = held.flat_map(Clause::words).collect();
    (source.image, words)
}
