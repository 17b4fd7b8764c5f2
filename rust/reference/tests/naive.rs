//! The quick closure, kept clauses and synthesis against the naive ones.

use std::collections::BTreeSet;

use inputs::add_delete::{self, Judged};
use inputs::{clauses, random, Rng};
use reference::clause::Clause;
use reference::closure::Closure;
use reference::kept::Judge;
use reference::literal::{literals, Literal};
use reference::marks::MOST_MARK_BYTES;
use reference::{checker, clause, naive, synthesis, Refusal};

fn random_clauses(rng: &mut Rng, atoms: usize) -> Vec<Clause> {
    let rows = clauses::random_set(rng, atoms, 8);
    clause::read(&clauses::words(&rows), atoms).expect("rows are right")
}

#[test]
fn closures_agree() {
    let rng = &mut Rng::new(1);
    let mut contradictory = 0;
    for _ in 0..20_000 {
        let atoms = rng.between(1, 6);
        let set = random_clauses(rng, atoms);
        let start = inputs::random::literal_list(rng, atoms, 3);
        let quick = Closure::new(atoms, &set, &start);
        let slow = naive::closure(&set.iter().copied().collect(), &literals(&start).collect());
        assert_eq!(quick.is_contradictory(), naive::is_contradictory(&slow));
        contradictory += usize::from(quick.is_contradictory());
        let all = (0..2 * atoms as u16).map(Literal);
        let held: BTreeSet<Literal> = all.filter(|&literal| quick.holds(literal)).collect();
        assert!(
            quick.is_contradictory() || held == slow,
            "{set:?} {start:?}"
        );
    }
    assert!((1_000..19_000).contains(&contradictory), "{contradictory}");
}

#[test]
fn kept_agree() {
    let rng = &mut Rng::new(2);
    let mut counts = [0; 2];
    for _ in 0..10_000 {
        let image = random::small(rng).image();
        let task = reference::task::read(&image).expect("a right image");
        let set = random_clauses(rng, task.atoms());
        let slow_set: BTreeSet<Clause> = set.iter().copied().collect();
        let judged = random_clauses(rng, task.atoms());
        for (number, operator) in task.all_operators().enumerate() {
            let fails = |clause| !naive::keeps(&slow_set, clause, &operator);
            let slow: Vec<usize> = (0..judged.len()).filter(|&i| fails(&judged[i])).collect();
            let quick = Judge::new(&task, &set, number).failing(&judged);
            assert_eq!(quick, slow, "{image:?} {set:?} {judged:?} {number}");
            counts[0] += quick.len();
            counts[1] += judged.len();
        }
    }
    assert!(
        counts[0] > 10_000 && counts[1] > 2 * counts[0],
        "{counts:?}"
    );
}

/// The same where most rows make a literal of the clause false.
#[test]
fn kept_agree_on_falsifying_rows() {
    let rng = &mut Rng::new(5);
    let mut kept = 0;
    for _ in 0..20_000 {
        let (task, row) = clauses::falsifying_task(rng);
        let image = task.image();
        let task = reference::task::read(&image).expect("a right image");
        let set = random_clauses(rng, task.atoms());
        let judged = clause::read(&row, task.atoms()).expect("a right row");
        let slow = naive::keeps(
            &set.iter().copied().collect(),
            &judged[0],
            &task.operator(0),
        );
        let quick = Judge::new(&task, &set, 0).failing(&judged).is_empty();
        assert_eq!(quick, slow, "{image:?} {set:?} {judged:?}");
        kept += usize::from(quick);
    }
    assert!((2_000..18_000).contains(&kept), "{kept}");
}

/// The same where the operator adds and deletes one atom.
#[test]
fn kept_agree_on_add_and_delete() {
    let rng = &mut Rng::new(6);
    let mut kept = 0;
    for _ in 0..20_000 {
        let Judged { task, set, clause } = add_delete::judged(rng);
        let image = task.image();
        let task = reference::task::read(&image).expect("a right image");
        let set = clause::read(&clauses::words(&set), task.atoms()).expect("right rows");
        let judged = clause::read(&clause, task.atoms()).expect("a right row");
        let slow_set = set.iter().copied().collect();
        let slow = naive::keeps(&slow_set, &judged[0], &task.operator(0));
        let quick = Judge::new(&task, &set, 0).failing(&judged).is_empty();
        assert_eq!(quick, slow, "{image:?} {set:?} {judged:?}");
        kept += usize::from(quick);
    }
    assert!((2_000..18_000).contains(&kept), "{kept}");
}

#[test]
fn syntheses_agree() {
    let rng = &mut Rng::new(3);
    let mut rounds = 0;
    for number in 0..6_000 {
        let task = if number < 3_000 {
            random::small(rng)
        } else {
            add_delete::task(rng)
        };
        let image = task.image();
        let task = reference::task::read(&image).expect("a right image");
        let n = 1 + number % 3;
        if task.atoms() > 12 {
            continue;
        }
        let slow = naive::synthesis(&task, n);
        let quick = synthesis::run(&task, n, 65535, 10_000).expect("room enough");
        let last: Vec<Clause> = slow[slow.len() - 1].iter().copied().collect();
        assert_eq!(quick.clauses, last, "{image:?} {n}");
        assert_eq!(quick.rounds, slow.len(), "{image:?} {n}");
        let largest = slow.iter().map(BTreeSet::len).max();
        assert_eq!(Some(quick.largest), largest, "{image:?} {n}");
        rounds += quick.rounds;
    }
    assert!(rounds > 10_000, "{rounds}");
}

/// The first clause that is false, or else the first that is not kept.
fn naive_refusal(image: &[u16], rows: &[u16]) -> Option<Refusal> {
    let task = reference::task::read(image).expect("a right image");
    let set = clause::read(rows, task.atoms()).expect("rows are right");
    let slow_set = set.iter().copied().collect();
    let initial = task.initial_state();
    let refusal = |number, first, second| Refusal {
        number,
        first: first as u64,
        second: second as u64,
    };
    if let Some(place) = set.iter().position(|clause| !clause.holds(&initial)) {
        return Some(refusal(10, place, 0));
    }
    set.iter().enumerate().find_map(|(place, clause)| {
        let fails = |operator| !naive::keeps(&slow_set, clause, &operator);
        let operator = task.all_operators().position(fails)?;
        Some(refusal(11, place, operator))
    })
}

#[test]
fn checkers_agree() {
    let rng = &mut Rng::new(4);
    let mut counts = [0; 3];
    for _ in 0..5_000 {
        let task = random::small(rng);
        let image = task.image();
        let mut state = vec![0; usize::from(task.atoms)];
        for &atom in &task.initial {
            state[usize::from(atom)] = 1;
        }
        let mut set = clauses::true_set(rng, &state, 6);
        if rng.chance(20) {
            clauses::mutate(rng, state.len(), &mut set);
        }
        let rows = clauses::words(&set);
        let quick = checker::check(&image, &rows, &mut [0; MOST_MARK_BYTES]).err();
        assert_eq!(quick, naive_refusal(&image, &rows), "{image:?} {rows:?}");
        counts[quick.map_or(0, |refusal| refusal.number as usize - 9)] += 1;
    }
    assert!(counts.iter().all(|&count| count > 100), "{counts:?}");
}
