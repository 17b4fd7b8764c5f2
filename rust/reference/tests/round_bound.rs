//! The bound on rounds against the closed forms of document 02 §5 and an enumeration;
//! and why it is one, on small tasks.

use std::collections::BTreeSet;

use inputs::rounds::{chain, counter, walk, walk_of_pairs};
use inputs::small;
use reference::clause::Clause;
use reference::literal::Literal;
use reference::naive;
use reference::round_bound::{possible_clauses, round_bound};

/// The closed forms of document 02 §5; the last is `4N(N-1)(N-2)/3` more.
#[test]
fn closed_forms() {
    for atoms in 0..=2000u64 {
        let pairs = 2 * atoms * atoms;
        let triples = 4 * atoms * atoms.saturating_sub(1) * atoms.saturating_sub(2) / 3;
        assert_eq!(round_bound(atoms, 1), 2 * atoms + 1);
        assert_eq!(round_bound(atoms, 2), pairs + 1);
        assert_eq!(round_bound(atoms, 3), pairs + triples + 1);
    }
}

/// All sets of 1 to `n` literals with no atom twice.
fn enumerated(atoms: u16, n: usize) -> BTreeSet<Clause> {
    let members = |subset: u32| (0..2 * atoms).filter(move |literal| subset >> literal & 1 == 1);
    let all = (0u32..1 << (2 * atoms)).map(|subset| members(subset).collect::<Vec<u16>>());
    let is_clause = |list: &Vec<u16>| {
        (1..=n).contains(&list.len()) && list.windows(2).all(|pair| pair[0] / 2 < pair[1] / 2)
    };
    let clause = |list: Vec<u16>| {
        let literals: Vec<Literal> = list.into_iter().map(Literal).collect();
        Clause::new(&literals)
    };
    all.filter(is_clause).map(clause).collect()
}

#[test]
fn enumerations() {
    for atoms in 0..=6 {
        for n in 1..=3 {
            let count = enumerated(atoms, n).len() as u64;
            assert_eq!(possible_clauses(u64::from(atoms), n as u32), count);
        }
    }
}

/// The most atoms for which question 12 admits the bound as a limit, and that bound.
#[test]
fn within_the_limit() {
    let most = |n| (0..=1024).rfind(|&atoms| round_bound(atoms, n) <= 65535);
    assert_eq!(
        [1, 2, 3].map(|n| most(n).map(|atoms| (atoms, round_bound(atoms, n)))),
        [Some((1024, 2049)), Some((181, 65523)), Some((37, 64899))]
    );
}

/// The possible clauses that contain one of the set.
fn containing(possible: &BTreeSet<Clause>, set: &BTreeSet<Clause>) -> BTreeSet<Clause> {
    let contains = |clause: &&Clause| {
        let lies_in = |part: &Clause| part.literals().all(|literal| clause.contains(literal));
        set.iter().any(lies_in)
    };
    possible.iter().filter(contains).copied().collect()
}

/// From set to set there are fewer possible clauses that contain one of the set. None of
/// them is false initially.
fn assert_losing(image: &[u16], possible: &BTreeSet<Clause>, n: usize) {
    let task = reference::task::read(image).expect("a right image");
    let sets = naive::synthesis(&task, n);
    let above: Vec<_> = sets.iter().map(|set| containing(possible, set)).collect();
    let initial = task.initial_state();
    assert!(above[0].iter().all(|clause| clause.holds(&initial)));
    for pair in above.windows(2) {
        let fewer = pair[1].len() < pair[0].len() && pair[1].is_subset(&pair[0]);
        assert!(fewer, "{image:?} {n}");
    }
}

#[test]
fn each_failing_round_loses_a_clause() {
    for (atoms, operators) in [(1, 1), (1, 2), (2, 1), (2, 2), (3, 1)] {
        for n in 1..=3 {
            let possible = enumerated(atoms, n);
            for k in 0..small::count(atoms, operators) {
                let image = small::small(atoms, operators, k).image();
                assert_losing(&image, &possible, n);
            }
        }
    }
}

/// The tasks of many rounds, small ones.
#[test]
fn many_rounds() {
    let tasks = [
        (chain(5), 1, 6),
        (walk(5, 2), 2, 1 + 5 + 10),
        (walk_of_pairs(5), 2, 1 + 5 + 10),
        (walk(5, 3), 3, 1 + 5 + 10 + 10),
        (counter(&[3, 4]), 2, 3 * 4),
        (counter(&[2, 3, 3]), 3, 2 * 3 * 3),
    ];
    for (task, n, rounds) in tasks {
        let image = task.image();
        let task = reference::task::read(&image).expect("a right image");
        assert_eq!(naive::synthesis(&task, n).len(), rounds, "{image:?}");
        assert_losing(&image, &enumerated(task.atoms() as u16, n), n);
    }
}
