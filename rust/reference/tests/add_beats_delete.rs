//! Document 02 §3: an add beats a delete, in steps, in judging and in synthesis.
//! Witnesses written down by hand, and all states and lists of small tasks.

mod common;

use std::collections::BTreeSet;

use common::*;
use inputs::add_delete::{self, Judged};
use inputs::fixed::kept_cases;
use inputs::structured::changer;
use inputs::task::{OperatorSpec, RowSpec};
use inputs::{clauses, Rng};
use reference::clause::{self, Clause};
use reference::kept::Judge;
use reference::literal::{all_true, Literal};
use reference::task::{self as model, Task};
use reference::{coding, fdr, naive, state, synthesis as search};

/// A task of two atoms and one operator; a row is its effect and its conditions.
fn one_operator(precondition: &[u16], rows: &[(u16, &[u16])]) -> Vec<u16> {
    let rows = rows
        .iter()
        .map(|(effect, conditions)| RowSpec::new(*effect, conditions));
    let operator = OperatorSpec {
        precondition: precondition.to_vec(),
        rows: rows.collect(),
    };
    task(2, &[], &[operator])
}

/// `<: +0 -0 +1 -1>`.
fn all_literals() -> Vec<u16> {
    one_operator(&[], &[(0, &[]), (1, &[]), (2, &[]), (3, &[])])
}

/// `<+1: -0, +0 > +1, +0 > -1>`.
fn beaten() -> Vec<u16> {
    one_operator(&[2], &[(1, &[]), (2, &[0]), (3, &[0])])
}

/// What quick and transcribed say of the clause under operator 0, without clauses.
fn kept_without_clauses(image: &[u16], row: [u16; 3]) -> bool {
    let task = model::read(image).expect("a right image");
    let judged = clause::read(&row, task.atoms()).expect("a right row");
    let slow = naive::keeps(&BTreeSet::new(), &judged[0], &task.operator(0));
    assert_eq!(is_kept(image, &[], &row, 0), Ok(slow), "{image:?} {row:?}");
    slow
}

#[test]
fn witnesses_of_kept_clauses() {
    assert!(kept_without_clauses(&all_literals(), [0, F, F]));
    assert!(!kept_without_clauses(&all_literals(), [1, F, F]));
    assert!(!kept_without_clauses(&all_literals(), [1, 3, F]));
    assert!(kept_without_clauses(&all_literals(), [0, 3, F]));
    let both = one_operator(&[], &[(0, &[]), (1, &[])]);
    assert!(kept_without_clauses(&both, [0, F, F]));
    assert!(!kept_without_clauses(&beaten(), [0, 2, F]));
}

#[test]
fn written_cases_by_the_transcription() {
    for case in kept_cases() {
        let task = model::read(&case.image).expect("a right image");
        let set = clause::read(&case.clauses, task.atoms()).expect("right rows");
        let judged = clause::read(&case.clause, task.atoms()).expect("a right row");
        let slow = naive::keeps(&set.into_iter().collect(), &judged[0], &task.operator(0));
        assert_eq!(slow, case.kept, "{}", case.name);
    }
}

#[test]
fn witnesses_of_steps() {
    let after = |image: &[u16], mut state: [u8; 2]| {
        state::step(image, &mut state, 0)?;
        assert_eq!(state::run(image, &mut state.clone(), &[0]), Ok(1));
        Ok(state)
    };
    for state in [[0, 0], [0, 1], [1, 0], [1, 1]] {
        assert_eq!(after(&all_literals(), state), Ok([1, 1]));
    }
    assert_eq!(after(&beaten(), [1, 1]), Ok([0, 1]));
    assert_eq!(after(&beaten(), [0, 1]), Ok([0, 1]));
    assert_eq!(after(&beaten(), [1, 0]), refusal(20, 0, 0));
    // Only a fired add beats a fired delete.
    let unfired = one_operator(&[], &[(0, &[2]), (1, &[])]);
    assert_eq!(after(&unfired, [1, 0]), Ok([0, 0]));
    assert_eq!(after(&unfired, [0, 1]), Ok([1, 1]));
}

/// The operator guarantees +0 and not -0: {-0} is weakened to {-0, +1} alone.
#[test]
fn a_guaranteed_negative_literal() {
    let operator = OperatorSpec::strips(&[], &[0, 1, 2]);
    let image = task(3, &[], &[operator]);
    let read = model::read(&image).expect("a right image");
    let sets = naive::synthesis(&read, 2);
    let words: Vec<_> = sets[1].iter().map(Clause::words).collect();
    assert_eq!(words, [[0, 3, F], [1, 2, F], [5, F, F]]);
    let found = search::run(&read, 2, 65535, 10_000).expect("room enough");
    assert_eq!((found.clauses.len(), found.rounds), (3, sets.len()));
}

/// A tray sent to the dock where it is: it stays there, in both encodings.
#[test]
fn a_tray_sent_to_its_dock() {
    let image = changer(2, 3).image();
    let (answer, rows) = synthesis(&image, 3, 100, 300);
    let rows = &rows[..3 * answer.expect("finished").rows];
    let somewhere = |row: &[u16]| row == [0, 2, 4] || row == [6, 8, 10];
    assert_eq!(rows.chunks(3).filter(|row| somewhere(row)).count(), 2);
    let coded = reencoded(&image, rows).expect("accepted");
    let (mut bytes, mut values) = ([9; 6], [9; 2]);
    assert_eq!(state::initial(&image, &mut bytes), Ok(()));
    assert_eq!(fdr::initial(&coded, &mut values), Ok(()));
    assert_eq!((bytes, values), ([1, 0, 0, 0, 1, 0], [0, 1]));
    assert_eq!(state::step(&image, &mut bytes, 0), Ok(()));
    assert_eq!(fdr::step(&coded, &mut values, 0), Ok(()));
    assert_eq!((bytes, values), ([1, 0, 0, 0, 1, 0], [0, 1]));
    assert_eq!(state::run(&image, &mut bytes, &[0, 4, 2, 2]), Ok(4));
    assert_eq!(fdr::run(&coded, &mut values, &[0, 4, 2, 2]), Ok(4));
    assert_eq!((bytes, values), ([0, 0, 1, 0, 1, 0], [2, 1]));
}

/// Whether the operator deletes and adds one atom in the state.
fn adds_and_deletes(task: &Task, state: &[u8], operator: usize) -> bool {
    let rows = task.operator(operator);
    let fired = || rows.rows().filter(|row| all_true(row.conditions, state));
    let applicable = all_true(rows.precondition, state);
    applicable && fired().any(|row| fired().any(|other| row.effect.complement() == other.effect))
}

/// On all states that meet the clauses and the precondition: a kept clause that is
/// true before is true after, and what is guaranteed is true after.
#[test]
fn kept_and_guaranteed_are_sound() {
    let rng = &mut Rng::new(31);
    let mut counts = [0; 4];
    for _ in 0..30_000 {
        let Judged { task, set, clause } = add_delete::judged(rng);
        let image = task.image();
        let task = model::read(&image).expect("a right image");
        let set = clause::read(&clauses::words(&set), task.atoms()).expect("right rows");
        let judged = clause::read(&clause, task.atoms()).expect("a right row");
        let judge = Judge::new(&task, &set, 0);
        let kept = judge.failing(&judged).is_empty();
        counts[usize::from(kept)] += 1;
        for before in inputs::state::all(task.atoms()) {
            let mut after = before.clone();
            let applied = state::apply(&task, &mut after, 0, &mut Vec::new()).is_ok();
            if !applied || !set.iter().all(|clause| clause.holds(&before)) {
                continue;
            }
            counts[2] += 1;
            counts[3] += usize::from(adds_and_deletes(&task, &before, 0));
            let broken = kept && judged[0].holds(&before) && !judged[0].holds(&after);
            assert!(!broken, "{image:?} {set:?} {clause:?} {before:?}");
            let guaranteed = (0u16..).zip(judge.guaranteed()).filter(|&(_, mark)| mark);
            for literal in guaranteed.map(|(word, _)| Literal(word)) {
                assert!(literal.is_true(&after), "{image:?} {set:?} {literal:?}");
            }
        }
    }
    println!("not kept, kept, steps, with an atom added and deleted: {counts:?}");
    assert!(counts.iter().all(|&count| count > 5_000), "{counts:?}");
}

/// A task with a set that the checker accepts, and its re-encoding.
struct Accepted<'a> {
    image: &'a [u16],
    coded: &'a [u16],
    set: &'a [Clause],
}

impl Accepted<'_> {
    fn initial(&self) -> (Vec<u8>, Vec<u16>) {
        let mut bytes = vec![9; usize::from(self.image[0])];
        let mut values = vec![9; usize::from(self.coded[0])];
        state::initial(self.image, &mut bytes).expect("right");
        fdr::initial(self.coded, &mut values).expect("right");
        (bytes, values)
    }

    /// Asserts what the two states have in common.
    fn agree(&self, bytes: &[u8], values: &[u16]) {
        let (image, set) = (self.image, self.set);
        let mut coded = vec![9; values.len()];
        assert!(set.iter().all(|c| c.holds(bytes)), "{image:?} {set:?}");
        assert_eq!(coding::encode(self.coded, bytes, &mut coded), Ok(()));
        assert_eq!(coded, values, "{image:?} {set:?}");
        assert_eq!(state::goal(image, bytes), fdr::goal(self.coded, values));
    }

    /// All longer lists: each as steps and as a list run.
    fn lists(&self, list: &mut Vec<u16>, bytes: &[u8], values: &[u16], more: usize) -> usize {
        let (mut ran, mut coded_ran) = self.initial();
        let answer = state::run(self.image, &mut ran, list);
        assert_eq!(fdr::run(self.coded, &mut coded_ran, list), answer);
        self.agree(&ran, &coded_ran);
        let mut count = 1;
        for operator in (0..=self.image[1]).filter(|_| more > 0) {
            let (mut next, mut coded) = (bytes.to_vec(), values.to_vec());
            let answer = state::step(self.image, &mut next, operator);
            let image = self.image;
            assert_eq!(
                fdr::step(self.coded, &mut coded, operator),
                answer,
                "{image:?}"
            );
            self.agree(&next, &coded);
            list.push(operator);
            count += self.lists(list, &next, &coded, more - 1);
            list.pop();
        }
        count
    }
}

/// All states reached, and in how many of them an operator adds and deletes an atom.
fn reached(task: &Task) -> (BTreeSet<Vec<u8>>, usize) {
    let mut seen = BTreeSet::from([task.initial_state()]);
    let mut open: Vec<_> = seen.iter().cloned().collect();
    let mut both = 0;
    while let Some(state) = open.pop() {
        for operator in 0..task.operators() {
            both += usize::from(adds_and_deletes(task, &state, operator));
            let mut next = state.clone();
            let answer = state::apply(task, &mut next, operator as u16, &mut Vec::new());
            if answer.is_ok() && seen.insert(next.clone()) {
                open.push(next);
            }
        }
    }
    (seen, both)
}

/// Sets to hand to the checker: synthesized ones and random ones, true initially.
fn sets(rng: &mut Rng, task: &Task) -> Vec<Vec<u16>> {
    let found = (1..=3).map(|n| search::run(task, n, 65535, 10_000).expect("room enough"));
    let mut sets: Vec<Vec<u16>> = found
        .map(|found| found.clauses.iter().flat_map(Clause::words).collect())
        .collect();
    let initial = task.initial_state();
    for _ in 0..6 {
        sets.push(clauses::words(&clauses::true_set(rng, &initial, 3)));
    }
    sets
}

/// Demand 3 on all lists of up to three numbers, for tasks of up to three atoms.
#[test]
fn small_tasks_and_their_reencodings_go_in_step() {
    let rng = &mut Rng::new(32);
    let [mut accepted, mut refused, mut lists, mut both] = [0; 4];
    for _ in 0..4_000 {
        let spec = add_delete::task(rng);
        if spec.atoms > 3 {
            continue;
        }
        let image = spec.image();
        let task = model::read(&image).expect("a right image");
        let (seen, both_fire) = reached(&task);
        both += both_fire;
        for rows in sets(rng, &task) {
            let Ok(coded) = reencoded(&image, &rows) else {
                refused += 1;
                continue;
            };
            accepted += 1;
            let set = clause::read(&rows, task.atoms()).expect("right rows");
            let hold = |state: &Vec<u8>| set.iter().all(|clause| clause.holds(state));
            assert!(seen.iter().all(hold), "{image:?} {set:?}");
            let pair = Accepted {
                image: &image,
                coded: &coded,
                set: &set,
            };
            let (bytes, values) = pair.initial();
            lists += pair.lists(&mut Vec::new(), &bytes, &values, 3);
        }
    }
    println!("{accepted} sets accepted, {refused} refused, {lists} lists");
    println!("{both} steps with an atom added and deleted");
    assert!(accepted > 10_000 && refused > 1_000 && lists > 100_000 && both > 3_000);
}
