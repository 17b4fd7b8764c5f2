//! The rules near those of document 02 §3: written as one rule with parts, the right
//! one agrees with the reference. Which of the others are unsound is tried on all
//! states.

use inputs::add_delete::{self, Judged};
use inputs::{clauses, state, Rng};
use reference::clause::{self, Clause};
use reference::kept::Judge;
use reference::literal::Literal;
use reference::task::{self, Task};
use reference::{fdr, state as model, synthesis};
use sources::nearby::judging::{self, Rule, NEARBY, RIGHT};
use sources::nearby::steps::{FdrStep, TaskStep};

/// Whether the clause holds after the operator in all states in which it holds
/// before, and the set and the precondition.
fn never_breaks(task: &Task, set: &[Clause], clause: &Clause) -> bool {
    state::all(task.atoms()).all(|state| {
        let mut next = state.clone();
        let applied = model::apply(task, &mut next, 0, &mut Vec::new()).is_ok();
        let met = set
            .iter()
            .chain([clause])
            .all(|clause| clause.holds(&state));
        !applied || !met || clause.holds(&next)
    })
}

/// Judges clauses by a rule: how often it answers other than the right one, and how
/// often it keeps a clause that can break.
fn judge(rule: Rule, seed: u64) -> [usize; 2] {
    let rng = &mut Rng::new(seed);
    let mut counts = [0; 2];
    for _ in 0..20_000 {
        let Judged { task, set, clause } = add_delete::judged(rng);
        let image = task.image();
        let task = task::read(&image).expect("a right image");
        let set = clause::read(&clauses::words(&set), task.atoms()).expect("right rows");
        let judged = clause::read(&clause, task.atoms()).expect("a right row");
        let right = Judge::new(&task, &set, 0).failing(&judged).is_empty();
        let kept = rule.keeps(&task, &set, &judged[0], 0);
        counts[0] += usize::from(kept != right);
        counts[1] += usize::from(kept && !never_breaks(&task, &set, &judged[0]));
    }
    counts
}

/// Whether what the table says to occur has occurred often, and other things never.
fn as_said(occurs: bool, count: usize) -> bool {
    match occurs {
        true => count > 20,
        false => count == 0,
    }
}

#[test]
fn kept_clauses() {
    assert_eq!(judge(RIGHT, 1), [0, 0]);
    for nearby in NEARBY {
        let (name, [differs, breaks]) = (nearby.name, judge(nearby.rule, 1));
        println!("{name}: {differs} of 20000 answers differ, {breaks} kept clauses can break");
        assert!(differs > 20 && as_said(nearby.unsound, breaks), "{name}");
    }
}

#[test]
fn guaranteed_literals() {
    let rng = &mut Rng::new(2);
    let mut differs = [0; NEARBY.len()];
    for _ in 0..20_000 {
        let Judged { task, set, .. } = add_delete::judged(rng);
        let image = task.image();
        let task = task::read(&image).expect("a right image");
        let set = clause::read(&clauses::words(&set), task.atoms()).expect("right rows");
        let marks = Judge::new(&task, &set, 0).guaranteed();
        let held = (0u16..).zip(marks).filter(|&(_, mark)| mark);
        let right: Vec<Literal> = held.map(|(word, _)| Literal(word)).collect();
        assert_eq!(RIGHT.guaranteed(&task, &set, 0), right, "{image:?} {set:?}");
        for (count, nearby) in differs.iter_mut().zip(NEARBY) {
            *count += usize::from(nearby.rule.guaranteed(&task, &set, 0) != right);
        }
    }
    println!("guaranteed literals differ {differs:?} of 20000 times");
    for (nearby, count) in NEARBY.iter().zip(differs) {
        assert!(
            as_said(nearby.guarantees_otherwise, count),
            "{}",
            nearby.name
        );
    }
}

#[test]
fn syntheses() {
    let rng = &mut Rng::new(3);
    for number in 0..3_000 {
        let image = add_delete::task(rng).image();
        let task = task::read(&image).expect("a right image");
        let n = 1 + number % 3;
        let found = synthesis::run(&task, n, 65535, 10_000).expect("room enough");
        let small = judging::synthesis(&task, n, RIGHT, RIGHT);
        assert_eq!(small, (found.clauses, found.rounds), "{image:?} {n}");
    }
}

#[test]
fn task_steps() {
    let rng = &mut Rng::new(4);
    let mut differs = [0; TaskStep::NEARBY.len()];
    for _ in 0..20_000 {
        let image = add_delete::task(rng).image();
        let task = task::read(&image).expect("a right image");
        let state = state::valid(rng, task.atoms());
        let operator = state::operator(rng, task.operators());
        let mut next = state.clone();
        let right = model::step(&image, &mut next, operator).map(|()| next);
        let small = TaskStep::Right.apply(&task, &state, operator);
        assert_eq!(small, right, "{image:?} {state:?} {operator}");
        for (count, step) in differs.iter_mut().zip(TaskStep::NEARBY) {
            *count += usize::from(step.apply(&task, &state, operator) != right);
        }
    }
    println!("task steps differ {differs:?} of 20000 times");
    assert!(differs.iter().all(|&count| count > 500));
}

#[test]
fn reencoded_steps() {
    let rng = &mut Rng::new(5);
    let mut differs = [0; FdrStep::NEARBY.len()];
    for _ in 0..20_000 {
        let spec = add_delete::fdr(rng);
        let image = spec.image();
        let state = spec.state(rng);
        let operator = state::operator(rng, spec.operators.len());
        let mut next = state.clone();
        let right = fdr::step(&image, &mut next, operator).map(|()| next);
        let small = FdrStep::Right.apply(&spec, &state, operator);
        assert_eq!(small, right, "{image:?} {state:?} {operator}");
        for (count, step) in differs.iter_mut().zip(FdrStep::NEARBY) {
            *count += usize::from(step.apply(&spec, &state, operator) != right);
        }
    }
    println!("re-encoded steps differ {differs:?} of 20000 times");
    assert!(differs.iter().all(|&count| count > 500));
}
