//! Cases of asks and commits.

use crate::case::{Case, FILL};
use crate::collection::Collection;
use crate::join::REFUSED;
use inputs::task::{OperatorSpec, TaskSpec};
use inputs::ticket::{single, single_of, Single};
use inputs::{random, structured, Rng};
use reference::ticket::{commit, Ticket};

const ASK: u16 = 21;
const COMMIT: u16 = 22;

/// The last count.
const LAST: u16 = 65535;

pub fn add_cases(collection: &mut Collection) {
    let kinds = [
        ring_cases(),
        count_cases(),
        all_states(),
        refused_images(),
        question_order(),
        walks(),
    ];
    for case in kinds.concat() {
        collection.add(&case);
    }
    let rng = &mut Rng::new(20261122);
    collection.add_random(|| random_case(rng));
    collection.assert_numbers(ASK, &[0, 1, 2, 3, 4, 5, 6, 7, 18, 19, 20]);
    collection.assert_numbers(COMMIT, &[0, 1, 2, 3, 4, 5, 6, 7, 18, 19, 20, 28]);
}

/// An ask for an operator in a state with this count.
fn asking(image: &[u16], state: &[u8], count: u16, operator: u16) -> Case {
    Case {
        call: ASK,
        numbers: [operator, count],
        image: image.to_vec(),
        small: state.to_vec(),
        ..Case::default()
    }
}

/// A commit of a ticket, its count and its operator, in a state with this count.
fn committing(image: &[u16], state: &[u8], count: u16, ticket: (u16, u16)) -> Case {
    Case {
        call: COMMIT,
        numbers: [ticket.1, ticket.0],
        list: vec![count],
        ..asking(image, state, count, ticket.1)
    }
}

/// Every operator of the ring, and one too high, at each place of the token: an ask, its
/// commit, and the commit of an old ticket.
fn ring_cases() -> Vec<Case> {
    let image = structured::ring(3).image();
    let mut cases = Vec::new();
    for state in [[1, 0, 0], [0, 1, 0], [0, 0, 1], [1, 1, 0]] {
        for operator in 0..4 {
            cases.push(asking(&image, &state, 1, operator));
            cases.push(committing(&image, &state, 1, (1, operator)));
            cases.push(committing(&image, &state, 1, (0, operator)));
        }
    }
    cases
}

/// Each of some counts of the state with each of a ticket: the lowest, the last, pairs
/// that are alike in one byte, and 7, which is not stored.
fn count_cases() -> Vec<Case> {
    let image = structured::ring(2).image();
    let counts = [0, 1, FILL, 255, 256, 511, 32768, 65534, LAST];
    let mut cases = Vec::new();
    for count in counts {
        cases.push(asking(&image, &[0, 1], count, 1));
        cases.extend(counts.map(|of| committing(&image, &[0, 1], count, (of, 1))));
    }
    cases
}

/// Operators that add and delete one atom, or do nothing, in all states of two atoms.
fn all_states() -> Vec<Case> {
    let both = OperatorSpec::strips(&[], &[0, 1, 3]);
    let needs = OperatorSpec::strips(&[0, 3], &[1, 2]);
    let task = TaskSpec {
        atoms: 2,
        operators: vec![both, needs, OperatorSpec::default()],
        ..TaskSpec::default()
    };
    let image = task.image();
    let mut cases = Vec::new();
    for state in inputs::state::all(2) {
        for operator in 0..3 {
            cases.push(asking(&image, &state, 700, operator));
            cases.push(committing(&image, &state, 700, (700, operator)));
        }
    }
    cases
}

/// Images that are refused, with a state, a ticket and an operator that would be.
fn refused_images() -> Vec<Case> {
    let mut cases = Vec::new();
    for (number, image) in REFUSED {
        let refused = [
            asking(image, &[2; 5], LAST, LAST),
            committing(image, &[2; 5], LAST, (5, LAST)),
            committing(image, &[1], 4, (4, 0)),
        ];
        for case in refused {
            assert_eq!(case.line().0, number);
            cases.push(case);
        }
    }
    cases.push(asking(&[FILL; 8193], &[], 0, 0));
    cases.push(committing(&[FILL; 8193], &[1, 2], 3, (4, 5)));
    cases
}

/// 18 before 28, 28 before 19 and 20; an ask does not ask 28. State and count stay.
fn question_order() -> Vec<Case> {
    let image = structured::ring(3).image();
    let without = TaskSpec {
        atoms: 1,
        ..TaskSpec::default()
    };
    let states: [&[u8]; 6] = [
        &[],
        &[1, 0],
        &[1, 0, 0, 0],
        &[2, 0, 0],
        &[1, 0, 255],
        &[1, 0, 0],
    ];
    let mut cases = Vec::new();
    for state in states {
        for (count, ticket) in [(5, 5), (5, 6), (LAST, LAST), (LAST, 0)] {
            for operator in [0, 1, 3] {
                cases.push(committing(&image, state, count, (ticket, operator)));
            }
        }
        cases.extend([0, 1, 3].map(|operator| asking(&image, state, LAST, operator)));
    }
    cases.push(asking(&without.image(), &[1], 0, 0));
    cases.push(committing(&without.image(), &[1], 0, (0, 0)));
    cases.push(committing(&without.image(), &[0], 1, (0, LAST)));
    cases
}

/// Along a list of small tasks of some kinds, from 0 and up to the last count: asks, and
/// the commits of what was asked.
fn walks() -> Vec<Case> {
    let tasks = [
        structured::gripper(1, 2, 1),
        structured::changer(2, 2),
        structured::briefcase(1, 2),
    ];
    let mut cases = Vec::new();
    for task in tasks {
        let image = task.image();
        for start in [0, LAST - 2] {
            let mut state = vec![0; usize::from(task.atoms)];
            reference::state::initial(&image, &mut state).expect("a right image");
            cases.extend(walk(&image, &mut state, start));
        }
    }
    cases
}

/// Asks for each operator in turn, and commits it; four are done at the most.
fn walk(image: &[u16], state: &mut [u8], start: u16) -> Vec<Case> {
    let mut cases = Vec::new();
    let mut count = start;
    for operator in (0..image[1]).cycle().take(12) {
        if cases.len() == 8 {
            break;
        }
        let ticket = Ticket { count, operator };
        if reference::ticket::ask(image, state, count, operator).is_ok() {
            cases.push(asking(image, state, count, operator));
            cases.push(committing(image, state, count, (count, operator)));
            // At the last count the commit is refused.
            let _ = commit(image, state, &mut count, ticket);
        }
    }
    cases
}

fn random_case(rng: &mut Rng) -> Case {
    let Single {
        image,
        state,
        count,
        ticket,
    } = if rng.chance(50) {
        let task = random::small(rng);
        single_of(rng, &task, 0)
    } else {
        single(rng, 60)
    };
    if rng.chance(40) {
        asking(&image, &state, count, ticket.operator)
    } else {
        committing(&image, &state, count, (ticket.count, ticket.operator))
    }
}
