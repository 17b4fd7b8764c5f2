//! All small tasks in order (document 02 §13).

use crate::task::{no, yes, OperatorSpec, RowSpec, TaskSpec};

/// The number of tasks with so many atoms and operators.
pub fn count(atoms: u16, operators: u16) -> u64 {
    let digits = atoms * operators;
    2u64.pow(u32::from(atoms)) * 9u64.pow(u32::from(digits))
}

/// Task `k`, below the count.
pub fn small(atoms: u16, operators: u16, k: u64) -> TaskSpec {
    let initial = (0..atoms).filter(|atom| k >> atom & 1 == 1).collect();
    let mut digits = k >> atoms;
    let mut operator = || {
        let mut operator = OperatorSpec::default();
        for atom in 0..atoms {
            add_digit(&mut operator, atom, digits % 9);
            digits /= 9;
        }
        operator
    };
    TaskSpec {
        atoms,
        initial,
        goal: Vec::new(),
        operators: (0..operators).map(|_| operator()).collect(),
    }
}

/// What the digit says of the atom: divided by 3 of the precondition, the remainder
/// of the row.
fn add_digit(operator: &mut OperatorSpec, atom: u16, digit: u64) {
    let literal = |sign| match sign {
        0 => None,
        1 => Some(yes(atom)),
        _ => Some(no(atom)),
    };
    operator.precondition.extend(literal(digit / 3));
    let effect = literal(digit % 3);
    operator
        .rows
        .extend(effect.map(|effect| RowSpec::new(effect, &[])));
}
