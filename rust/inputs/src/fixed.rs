//! Fixed cases with their answers written down by hand from document 01, and from
//! document 02 §3.

use crate::clauses::{words, Row, FILL};
use crate::task::{OperatorSpec, RowSpec, TaskSpec};

/// One clause under one operator (number 0) and whether it is kept.
pub struct KeptCase {
    pub name: &'static str,
    pub image: Vec<u16>,
    pub clauses: Vec<u16>,
    pub clause: Row,
    pub kept: bool,
}

/// The atoms of the cases.
const A: u16 = 0;
const B: u16 = 2;
const C: u16 = 4;
const D: u16 = 6;

const A_OR_B: Row = [A, B, FILL];

/// The complement.
const fn not(literal: u16) -> u16 {
    literal ^ 1
}

fn case(
    name: &'static str,
    (clauses, clause): (&[Row], Row),
    precondition: &[u16],
    rows: &[(u16, &[u16])],
    kept: bool,
) -> KeptCase {
    let rows = rows
        .iter()
        .map(|(effect, conditions)| RowSpec::new(*effect, conditions));
    let task = TaskSpec {
        atoms: 4,
        operators: vec![OperatorSpec {
            precondition: precondition.to_vec(),
            rows: rows.collect(),
        }],
        ..TaskSpec::default()
    };
    KeptCase {
        name,
        image: task.image(),
        clauses: words(clauses),
        clause,
        kept,
    }
}

/// Cases that tell readings of "Kept clauses" apart.
pub fn kept_cases() -> Vec<KeptCase> {
    let groups = [
        closure_cases(),
        row_cases(),
        held_literal_cases(),
        added_literal_cases(),
        own_literal_cases(),
        sign_cases(),
        deleted_literal_cases(),
        cannot_fire_cases(),
    ];
    groups.into_iter().flatten().collect()
}

/// What the closures are made of.
fn closure_cases() -> Vec<KeptCase> {
    let none: (&[Row], Row) = (&[], A_OR_B);
    vec![
        case(
            "the precondition belongs to K",
            none,
            &[B],
            &[(not(A), &[D])],
            true,
        ),
        case(
            "the row's conditions belong to K",
            none,
            &[],
            &[(not(A), &[B])],
            true,
        ),
        case(
            "clauses, precondition and conditions are closed together",
            (&[[B, not(C), not(D)]], A_OR_B),
            &[C],
            &[(not(A), &[D])],
            true,
        ),
        case(
            "without the clause nothing follows",
            none,
            &[C],
            &[(not(A), &[D])],
            false,
        ),
    ]
}

/// Which rows count.
fn row_cases() -> Vec<KeptCase> {
    let none: (&[Row], Row) = (&[], A_OR_B);
    vec![
        case(
            "a contradictory precondition keeps all",
            (&[[not(C), FILL, FILL]], A_OR_B),
            &[C],
            &[(not(A), &[])],
            true,
        ),
        case(
            "a row with contradictory conditions keeps all",
            (&[[not(C), FILL, FILL]], A_OR_B),
            &[],
            &[(not(A), &[C])],
            true,
        ),
        case(
            "a row with another effect is passed over",
            none,
            &[],
            &[(A, &[]), (not(C), &[])],
            true,
        ),
        case(
            "each row with the effect counts",
            none,
            &[],
            &[(not(A), &[B]), (not(A), &[C])],
            false,
        ),
        case(
            "each literal of the clause counts",
            none,
            &[],
            &[(not(B), &[C])],
            false,
        ),
    ]
}

/// What another literal needs that lies in K.
fn held_literal_cases() -> Vec<KeptCase> {
    let none: (&[Row], Row) = (&[], A_OR_B);
    vec![
        case(
            "a row with m's complement that cannot fire does not refuse",
            none,
            &[D],
            &[(not(A), &[B]), (not(B), &[not(D)])],
            true,
        ),
        case(
            "its conditions are added to K, not to the precondition alone",
            (&[[A, C, FILL]], A_OR_B),
            &[],
            &[(not(A), &[B, C]), (not(B), &[not(C)])],
            true,
        ),
        case(
            "a row with m's complement that can fire refuses",
            none,
            &[],
            &[(not(A), &[B]), (not(B), &[C])],
            false,
        ),
        case(
            "one other literal is enough",
            (&[], [A, B, C]),
            &[C],
            &[(not(A), &[]), (not(B), &[])],
            true,
        ),
    ]
}

/// What another literal needs that is added.
fn added_literal_cases() -> Vec<KeptCase> {
    let none: (&[Row], Row) = (&[], A_OR_B);
    vec![
        case(
            "an added m needs its conditions in K",
            none,
            &[C],
            &[(not(A), &[]), (B, &[C])],
            true,
        ),
        case(
            "else it is not added",
            none,
            &[],
            &[(not(A), &[]), (B, &[C])],
            false,
        ),
        case(
            "an added m is enough though another row may delete it",
            none,
            &[],
            &[(not(A), &[]), (B, &[]), (not(B), &[C]), (A, &[C])],
            true,
        ),
    ]
}

/// A positive literal that the row falsifies, with rows that add it.
fn own_literal_cases() -> Vec<KeptCase> {
    let none: (&[Row], Row) = (&[], [A, FILL, FILL]);
    vec![
        case(
            "a positive literal passes if it is added as well",
            none,
            &[],
            &[(not(A), &[]), (A, &[])],
            true,
        ),
        case(
            "the same where K holds it",
            (&[], A_OR_B),
            &[A],
            &[(not(A), &[]), (A, &[A])],
            true,
        ),
        case(
            "the add row needs its conditions in K",
            none,
            &[],
            &[(not(A), &[]), (A, &[C])],
            false,
        ),
        case(
            "to which the deleting row's conditions belong",
            none,
            &[],
            &[(not(A), &[C]), (A, &[C])],
            true,
        ),
    ]
}

/// Literals of either sign.
fn sign_cases() -> Vec<KeptCase> {
    vec![
        case(
            "a negative literal does not pass if it is deleted as well",
            (&[], [not(A), FILL, FILL]),
            &[],
            &[(A, &[]), (not(A), &[])],
            false,
        ),
        case(
            "a positive m is made true though it may be deleted",
            (&[], [not(A), B, FILL]),
            &[],
            &[(A, &[]), (B, &[]), (not(B), &[])],
            true,
        ),
        case(
            "a delete that an add beats counts where m has to stay",
            (&[], A_OR_B),
            &[B],
            &[(not(A), &[]), (B, &[A]), (not(B), &[A])],
            false,
        ),
    ]
}

const NOT_BOTH: Row = [not(A), not(B), FILL];

/// What another literal needs that is deleted.
fn deleted_literal_cases() -> Vec<KeptCase> {
    let none: (&[Row], Row) = (&[], NOT_BOTH);
    vec![
        case(
            "a delete row makes a negative m true",
            none,
            &[],
            &[(A, &[]), (not(B), &[])],
            true,
        ),
        case(
            "not if an add row fires as well",
            none,
            &[],
            &[(A, &[]), (not(A), &[]), (B, &[]), (not(B), &[])],
            false,
        ),
        case(
            "nor if one can fire",
            none,
            &[],
            &[(A, &[]), (not(B), &[]), (B, &[C])],
            false,
        ),
        case(
            "each add row counts",
            none,
            &[D],
            &[(A, &[]), (not(B), &[]), (B, &[not(D)]), (B, &[C])],
            false,
        ),
    ]
}

/// Add rows of a deleted literal's atom that cannot fire.
fn cannot_fire_cases() -> Vec<KeptCase> {
    let none: (&[Row], Row) = (&[], NOT_BOTH);
    vec![
        case(
            "an add row that contradicts the precondition does not matter",
            none,
            &[D],
            &[(A, &[]), (not(B), &[]), (B, &[not(D)])],
            true,
        ),
        case(
            "nor one that contradicts a clause",
            (&[[not(C), not(D), FILL]], NOT_BOTH),
            &[C],
            &[(A, &[]), (not(B), &[]), (B, &[D])],
            true,
        ),
        case(
            "an add row's conditions are added to K, not to the precondition alone",
            none,
            &[],
            &[
                (A, &[C]),
                (not(A), &[not(C)]),
                (not(B), &[]),
                (B, &[not(C)]),
            ],
            true,
        ),
    ]
}
