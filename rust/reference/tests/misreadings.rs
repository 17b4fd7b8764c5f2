//! The plausible misreadings listed in document 01, by the steps of document 02 §3,
//! and those of kept clauses.

mod common;

use common::*;
use inputs::fdr::{FdrOperatorSpec, FdrRowSpec, FdrSpec};
use inputs::fixed::kept_cases;
use inputs::task::OperatorSpec;
use reference::fdr;

#[test]
fn kept_clauses() {
    for case in kept_cases() {
        let answer = is_kept(&case.image, &case.clauses, &case.clause, 0);
        assert_eq!(answer, Ok(case.kept), "{}", case.name);
    }
}

/// A clause that fails in a round still supports others in that round.
#[test]
fn tested_against_the_unchanged_set() {
    let image = [
        4, 1, 8, 3, 11, 1, 12, 13, 1, 2, 3, 1, 0, 3, 7, 3, 1, 2, 7, 0, 1, 4, 3, 1, 0,
    ];
    let (answer, rows) = synthesis(&image, 1, 65535, 12);
    assert_eq!(answer.map(|found| (found.rows, found.rounds)), Ok((2, 3)));
    assert_eq!(rows, [4, F, F, 6, F, F, 0, 0, 0, 0, 0, 0]);
}

/// Ring operator 0 clears value 0 and sets value 1: it ends at 1, not at none.
#[test]
fn clearing_before_setting() {
    let image = reencoded(&RING, &RING_CLAUSES[3..]).expect("accepted");
    let mut state = [0];
    assert_eq!(fdr::step(&image, &mut state, 0), Ok(()));
    assert_eq!(state, [1]);
}

/// One variable with two atom values and perhaps none, and these rows.
fn one_variable(none: u16, rows: &[(u16, u16)]) -> Vec<u16> {
    let rows = rows.iter().map(|&(kind, value)| FdrRowSpec {
        kind,
        variable: 0,
        value,
        conditions: Vec::new(),
    });
    let task = FdrSpec {
        domains: vec![(2 + none, none)],
        atoms: vec![(0, 0), (0, 1)],
        initial: vec![0],
        goal: Vec::new(),
        operators: vec![FdrOperatorSpec {
            precondition: Vec::new(),
            rows: rows.collect(),
        }],
    };
    task.image()
}

/// A clear gives way to a set, whatever the present value is, and two sets of
/// different values are refused before any clear is asked about.
#[test]
fn sets_before_clears() {
    let step = |none, rows: &[(u16, u16)]| {
        let mut state = [0];
        fdr::step(&one_variable(none, rows), &mut state, 0).map(|()| state[0])
    };
    for none in [0, 1] {
        assert_eq!(step(none, &[(0, 1), (1, 1)]), Ok(1));
        assert_eq!(step(none, &[(1, 1), (0, 1)]), Ok(1));
        assert_eq!(step(none, &[(0, 0), (1, 0)]), Ok(0));
        assert_eq!(step(none, &[(1, 0), (0, 0)]), Ok(0));
        assert_eq!(step(none, &[(0, 1), (1, 1), (1, 0)]), Ok(1));
        assert_eq!(step(none, &[(0, 1), (0, 1), (1, 0)]), Ok(1));
        assert_eq!(step(none, &[(0, 0), (0, 1)]), refusal(21, 0, 0));
        assert_eq!(step(none, &[(1, 0), (0, 1), (0, 0)]), refusal(21, 0, 0));
        assert_eq!(step(none, &[(0, 1), (0, 1), (0, 0)]), refusal(21, 0, 0));
        assert_eq!(step(none, &[(1, 1)]), Ok(0));
    }
    assert_eq!(step(1, &[(1, 0), (1, 1)]), Ok(2));
    assert_eq!(step(0, &[(1, 0), (1, 1)]), refusal(22, 0, 0));
    assert_eq!(step(0, &[(1, 0)]), refusal(22, 0, 0));
}

/// Question 21 is asked of all variables before 22 of any.
#[test]
fn two_sets_before_an_omitted_none() {
    let row = |kind, variable, value| FdrRowSpec {
        kind,
        variable,
        value,
        conditions: Vec::new(),
    };
    let rows = vec![row(1, 0, 0), row(0, 1, 0), row(0, 1, 1)];
    let mut spec = FdrSpec {
        domains: vec![(1, 0), (2, 0)],
        atoms: vec![(0, 0), (1, 0), (1, 1)],
        initial: vec![0, 0],
        goal: Vec::new(),
        operators: vec![FdrOperatorSpec {
            precondition: Vec::new(),
            rows,
        }],
    };
    let mut state = [0, 0];
    assert_eq!(fdr::step(&spec.image(), &mut state, 0), refusal(21, 0, 0));
    spec.operators[0].rows.pop();
    assert_eq!(fdr::step(&spec.image(), &mut state, 0), refusal(22, 0, 0));
    assert_eq!(state, [0, 0]);
}

/// Atom 0 is true initially, but nothing says that one of the group stays true.
#[test]
fn none_is_omitted_only_for_a_clause() {
    let image = task(2, &[0], &[OperatorSpec::strips(&[], &[1])]);
    let clauses = [3, F, F];
    assert_eq!(check(&image, &clauses), Ok(()));
    let coded = reencoded(&image, &clauses).expect("accepted");
    let spec = FdrSpec::read(&coded).expect("right");
    assert_eq!(spec.domains, [(3, 1)]);
    assert_eq!(spec.initial, [0]);
}
