//! The small tasks of document 02 §13: each of the form, and none twice.

use std::collections::BTreeSet;

use inputs::small::{count, small};
use reference::literal::Literal;
use reference::task::{self, Operator, Task};

/// The digit of document 02 §13 for an atom of an operator.
fn digit(operator: &Operator, atom: u16) -> u64 {
    let sign = |literal: Option<Literal>| match literal {
        None => 0,
        Some(literal) => 1 + u64::from(literal.is_negated()),
    };
    let of_atom = |literal: &Literal| literal.atom() == usize::from(atom);
    let mut precondition = reference::literal::literals(operator.precondition);
    let mut effects = operator.rows().map(|row| row.effect);
    3 * sign(precondition.find(of_atom)) + sign(effects.find(of_atom))
}

/// The number that belongs to the task, from its last digit to its first bit.
fn number(task: &Task) -> u64 {
    let atoms = task.atoms() as u16;
    let mut k = 0;
    for operator in (0..task.operators()).rev() {
        for atom in (0..atoms).rev() {
            k = 9 * k + digit(&task.operator(operator), atom);
        }
    }
    let initial = task.initial_state();
    initial
        .iter()
        .rev()
        .fold(k, |k, &byte| 2 * k + u64::from(byte))
}

/// Whether the goal is empty and the rows are in atom order without conditions.
fn is_of_the_form(task: &Task) -> bool {
    let is_right = |operator: Operator| {
        let rows: Vec<_> = operator.rows().collect();
        rows.iter().all(|row| row.conditions.is_empty())
            && rows
                .windows(2)
                .all(|pair| pair[0].effect.atom() < pair[1].effect.atom())
    };
    task.goal().is_empty() && task.all_operators().all(is_right)
}

#[test]
fn each_number_has_its_task() {
    for (atoms, most) in [(1, 2), (2, 2), (3, 1)] {
        for operators in 0..=most {
            let mut images = BTreeSet::new();
            for k in 0..count(atoms, operators) {
                let image = small(atoms, operators, k).image();
                let task = task::read(&image).expect("a right image");
                let sizes = (task.atoms(), task.operators());
                assert_eq!(sizes, (usize::from(atoms), usize::from(operators)));
                assert!(is_of_the_form(&task), "{image:?}");
                assert_eq!(number(&task), k, "{image:?}");
                images.insert(image);
            }
            assert_eq!(images.len() as u64, count(atoms, operators));
        }
    }
}

#[test]
fn counts() {
    let counts = [(1, 0), (1, 2), (2, 1), (2, 2), (3, 2)].map(|(n, m)| count(n, m));
    assert_eq!(counts, [2, 162, 324, 26_244, 4_251_528]);
}

/// Two tasks written by hand: one without anything, and one with atom 0 true and two
/// operators: the first needs atom 0 false and adds atom 1, the second needs atom 1 and
/// deletes it.
#[test]
fn by_hand() {
    assert_eq!(small(1, 0, 0).image(), [1, 0, 6, 0, 6, 0]);
    let digits = [6, 1, 0, 3 + 2];
    let k = digits.iter().rev().fold(0, |k, digit| 9 * k + digit);
    assert_eq!(
        small(2, 2, 4 * k + 1).image(),
        [2, 2, 10, 1, 11, 0, 11, 5, 16, 5, 0, 1, 1, 1, 2, 0, 1, 2, 1, 3, 0]
    );
}
