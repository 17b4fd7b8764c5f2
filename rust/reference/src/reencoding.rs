//! The re-encoded image of a task.

use crate::answer::{ask, Answer};
use crate::checker::accepted;
use crate::groups::{form, Groups};
use crate::literal::{literals, Literal};
use crate::task::{Operator, Task};

/// Writes the re-encoded image: the checker's questions, 16. The answer is its
/// length; words after it stay.
pub fn reencode(
    image: &[u16],
    clauses: &[u16],
    marks: &mut [u8],
    target: &mut [u16],
) -> Answer<usize> {
    let (task, clauses) = accepted(image, clauses, marks)?;
    let groups = form(task.atoms(), &clauses);
    let words = reencoded(&task, &groups);
    ask(16, words.len() <= target.len())?;
    target[..words.len()].copy_from_slice(&words);
    Ok(words.len())
}

/// The image: V, M, the directory and the parts in their order.
fn reencoded(task: &Task, groups: &Groups) -> Vec<u16> {
    let mut parts: Vec<Vec<u16>> = vec![
        groups.domain_words().collect(),
        groups.atom_words().collect(),
        initial_values(task, groups),
        literal_words(task.goal(), groups).collect(),
    ];
    parts.extend(
        task.all_operators()
            .map(|operator| block(&operator, groups)),
    );
    let mut words = vec![groups.groups.len() as u16, task.operators() as u16];
    let mut offset = 2 + 2 * parts.len();
    for part in &parts {
        words.extend([offset as u16, part.len() as u16]);
        offset += part.len();
    }
    words.extend(parts.iter().flatten());
    words
}

/// The finite-domain state of the initial state. The set is true there, so no
/// group has two true atoms and none is not omitted where no atom is true.
fn initial_values(task: &Task, groups: &Groups) -> Vec<u16> {
    let nones = groups.groups.iter().map(|group| group.members.len() as u16);
    let mut values: Vec<u16> = nones.collect();
    for &atom in task.initial() {
        let (variable, value) = groups.atoms[usize::from(atom)];
        values[usize::from(variable)] = value;
    }
    values
}

/// A literal as (variable, 2 times value, plus 1 if negated).
fn literal_pair(literal: Literal, groups: &Groups) -> [u16; 2] {
    let (variable, value) = groups.atoms[literal.atom()];
    [variable, 2 * value + u16::from(literal.is_negated())]
}

fn literal_words<'a>(words: &'a [u16], groups: &'a Groups) -> impl Iterator<Item = u16> + 'a {
    literals(words).flat_map(|literal| literal_pair(literal, groups))
}

/// An operator's block; adding makes a set (0), deleting a clear (1).
fn block(operator: &Operator, groups: &Groups) -> Vec<u16> {
    let mut words = vec![operator.precondition.len() as u16];
    words.extend(literal_words(operator.precondition, groups));
    words.push(operator.rows().count() as u16);
    for row in operator.rows() {
        let (variable, value) = groups.atoms[row.effect.atom()];
        words.extend([u16::from(row.effect.is_negated()), variable, value]);
        words.push(row.conditions.len() as u16);
        words.extend(literal_words(row.conditions, groups));
    }
    words
}
