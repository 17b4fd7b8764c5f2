//! Cases of the call that compares task and re-encoding along a list.

use crate::case::Case;
use crate::clause::{case, checker_case};
use crate::collection::Collection;
use inputs::clauses::{self, FILL as NONE};
use inputs::{add_delete, state, structured, Rng};
use sources::Synthesized;

const AGREE: u16 = 16;

pub fn add_cases(collection: &mut Collection) {
    let fixed = [ring_cases(), structured_cases(), add_delete_cases()];
    for case in fixed.iter().flatten() {
        collection.add(case);
    }
    let rng = &mut Rng::new(20261117);
    collection.add_random(|| {
        let source = Synthesized::random(rng);
        agree(rng, &source)
    });
    collection.assert_numbers(AGREE, &[0, 1, 2, 3, 4, 5, 6, 7, 8, 9, 10, 11, 13]);
}

/// The ring by its three pairs, with the clause of three, by no clause, and by
/// sets that are refused; lists with and without refused numbers.
fn ring_cases() -> Vec<Case> {
    let image = structured::ring(3).image();
    let pairs = [1, 3, NONE, 1, 5, NONE, 3, 5, NONE];
    let with_three = [&[0, 2, 4], &pairs[..]].concat();
    let sets = [&pairs[..], &with_three, &[], &pairs[..3], &pairs[..4]];
    let lists = [
        &[0, 0, 1, 3, 2, 65535, 1, 0, 1, 2, 2, 0][..],
        &[0, 1, 2, 0, 1, 2],
        &[],
    ];
    let with_lists = |set: &[u16]| lists.map(|list| case(AGREE, &image, set, list));
    sets.into_iter().flat_map(with_lists).collect()
}

/// Small tasks of each kind by the sets that synthesis finds.
fn structured_cases() -> Vec<Case> {
    let tasks = [
        structured::ring(5),
        structured::gripper(1, 2, 1),
        structured::blocks(2),
        structured::briefcase(2, 2),
        structured::transport(1, 1, 2),
        structured::changer(2, 2),
    ];
    let rng = &mut Rng::new(20261118);
    let mut cases = Vec::new();
    for image in tasks.map(|task| task.image()) {
        for n in 1..=3 {
            let set = clauses::words(&Synthesized::new(image.clone(), n).rows);
            cases.push(case(AGREE, &image, &set, &list(rng, &image)));
        }
    }
    cases
}

/// Tasks whose operators add and delete one atom, by the sets that synthesis finds.
fn add_delete_cases() -> Vec<Case> {
    let rng = &mut Rng::new(20261120);
    let mut cases = Vec::new();
    for _ in 0..30 {
        let image = add_delete::task(rng).image();
        let set = clauses::words(&Synthesized::new(image.clone(), 3).rows);
        cases.push(case(AGREE, &image, &set, &list(rng, &image)));
    }
    cases
}

/// A list of numbers, most of them of operators.
fn list(rng: &mut Rng, image: &[u16]) -> Vec<u16> {
    let operators = usize::from(image[1]);
    let length = rng.below(20);
    (0..length)
        .map(|_| state::operator(rng, operators))
        .collect()
}

fn agree(rng: &mut Rng, source: &Synthesized) -> Case {
    let set = source.clause_words(rng);
    let mut case = checker_case(rng, source, AGREE, &set);
    case.other = list(rng, &source.image);
    case
}
