//! Two tasks joined (document 02 §6): question 27.

use crate::answer::{ask, Answer};
use crate::directory::{head_words, Writer};
use crate::literal::FILL;
use crate::task::{self, Operator, Task};

/// Writes the joined image: questions 1 to 7 for the first, then for the second, 27.
/// The answer is its length; words after it stay.
pub fn join(left: &[u16], right: &[u16], target: &mut [u16]) -> Answer<usize> {
    let (first, second) = (task::read(left)?, task::read(right)?);
    let atoms = first.atoms() + second.atoms();
    let operators = first.operators() + second.operators();
    let length = length(&first, &second);
    let within = atoms <= 1024 && operators <= 1024 && length <= 8192;
    ask(27, within && length <= target.len())?;
    write(&first, &second, &mut target[..length]);
    Ok(length)
}

/// Two numbers, a pair for each part, and the parts.
fn length(first: &Task, second: &Task) -> usize {
    let pairs = first.operators() + second.operators() + 2;
    head_words(pairs) + first.part_words() + second.part_words()
}

/// The joined image. The atoms of the second task follow those of the first.
fn write(first: &Task, second: &Task, target: &mut [u16]) {
    let atoms = first.atoms();
    let operators = first.operators() + second.operators();
    let numbers = [atoms + second.atoms(), operators];
    let mut image = Writer::new(target, numbers, operators + 2);
    image.list(first.initial(), 0);
    image.list(second.initial(), atoms as u16);
    image.end_part();
    let shift = 2 * atoms as u16;
    image.list(first.goal(), 0);
    image.list(second.goal(), shift);
    image.end_part();
    for (task, shift) in [(first, 0), (second, shift)] {
        for operator in task.split_operators() {
            write_block(&mut image, &operator, shift);
        }
    }
}

/// An operator's block with so much added to every literal.
fn write_block(image: &mut Writer, operator: &Operator, shift: u16) {
    image.word(operator.precondition.len() as u16);
    image.list(operator.precondition, shift);
    image.word(operator.row_count());
    for row in operator.rows() {
        image.word(row.effect.0 + shift);
        image.word(row.conditions.len() as u16);
        image.list(row.conditions, shift);
    }
    image.end_part();
}

/// The union of a clause set for each task, as rows for the joined task: the first's,
/// then the second's, shifted behind the first's `atoms`. Ascending sets give an
/// ascending one.
pub fn union(atoms: usize, first: &[u16], second: &[u16]) -> Vec<u16> {
    let shift = 2 * atoms as u16;
    let shifted = second.iter().map(|&word| match word {
        FILL => FILL,
        literal => literal + shift,
    });
    first.iter().copied().chain(shifted).collect()
}

/// Each task's own part of a list of operator numbers of the joined task, in the same
/// order; the first task has so many operators.
pub fn own_parts(operators: usize, list: &[u16]) -> (Vec<u16>, Vec<u16>) {
    let (first, mut second): (Vec<u16>, Vec<u16>) = list
        .iter()
        .partition(|&&operator| usize::from(operator) < operators);
    for operator in &mut second {
        *operator -= operators as u16;
    }
    (first, second)
}
