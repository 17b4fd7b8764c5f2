//! What the tests share: the ring and shorter ways to call.
#![allow(dead_code)]

use inputs::task::{OperatorSpec, TaskSpec};
use reference::answer::Finding;
use reference::marks::MOST_MARK_BYTES;
use reference::synthesis::synthesize;
use reference::{checker, kept, reencoding, Answer, Refusal};

/// Document 01's ring, word for word.
pub const RING: [u16; 35] = [
    3, 3, 12, 1, 13, 1, 14, 7, 21, 7, 28, 7, 0, 4, 1, 0, 2, 1, 0, 2, 0, 1, 2, 2, 3, 0, 4, 0, 1, 4,
    2, 5, 0, 0, 0,
];

pub const F: u16 = 65535;

/// The ring's clauses for n = 3.
pub const RING_CLAUSES: [u16; 12] = [0, 2, 4, 1, 3, F, 1, 5, F, 3, 5, F];

pub fn refusal<T>(number: u32, first: u64, second: u64) -> Answer<T> {
    Err(Refusal {
        number,
        first,
        second,
    })
}

pub fn check(image: &[u16], clauses: &[u16]) -> Answer<()> {
    checker::check(image, clauses, &mut [7; MOST_MARK_BYTES])
}

pub fn is_kept(image: &[u16], clauses: &[u16], clause: &[u16], operator: u16) -> Answer<bool> {
    kept::kept(image, clauses, clause, operator, &mut [7; MOST_MARK_BYTES])
}

/// Synthesis in a buffer of so many words, with the buffer afterwards.
pub fn synthesis(image: &[u16], n: u16, limit: u16, words: usize) -> (Answer<Finding>, Vec<u16>) {
    let mut clauses = vec![7; words];
    let mut work = vec![7; words];
    let marks = &mut [7; MOST_MARK_BYTES];
    let answer = synthesize(image, n, limit, &mut clauses, &mut work, marks);
    (answer, clauses)
}

/// The re-encoded image, if the checker accepts the clauses.
pub fn reencoded(image: &[u16], clauses: &[u16]) -> Answer<Vec<u16>> {
    let mut target = vec![7; 32768];
    let marks = &mut [7; MOST_MARK_BYTES];
    let length = reencoding::reencode(image, clauses, marks, &mut target)?;
    assert!(target[length..].iter().all(|&word| word == 7));
    target.truncate(length);
    Ok(target)
}

/// A task with these operators and atoms true initially.
pub fn task(atoms: u16, initial: &[u16], operators: &[OperatorSpec]) -> Vec<u16> {
    let task = TaskSpec {
        atoms,
        initial: initial.to_vec(),
        goal: Vec::new(),
        operators: operators.to_vec(),
    };
    task.image()
}
