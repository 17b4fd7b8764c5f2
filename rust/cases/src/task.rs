//! Cases of the calls on tasks.

use crate::case::Case;
use crate::collection::Collection;
use inputs::task::{OperatorSpec, RowSpec, TaskSpec};
use inputs::{damage, random, state, structured, Rng};

const READ: u16 = 0;
const INITIAL: u16 = 1;
const STEP: u16 = 2;
const GOAL: u16 = 3;
const RUN: u16 = 4;

pub fn add_cases(collection: &mut Collection) {
    let fixed = [ring_cases(), structured_cases(), add_delete_cases()];
    for case in fixed.iter().flatten() {
        collection.add(case);
    }
    let rng = &mut Rng::new(20261115);
    collection.add_random(|| random_case(rng));
    collection.assert_numbers(READ, &[0, 1, 2, 3, 4, 5, 6, 7]);
    for call in [INITIAL, GOAL] {
        collection.assert_numbers(call, &[0, 1, 2, 3, 4, 5, 6, 7, 18]);
    }
    for call in [STEP, RUN] {
        collection.assert_numbers(call, &[0, 1, 2, 3, 4, 5, 6, 7, 18, 19, 20]);
    }
}

fn case(call: u16, image: &[u16], operator: u16, state: &[u8], list: &[u16]) -> Case {
    Case {
        call,
        numbers: [operator, 0],
        image: image.to_vec(),
        list: list.to_vec(),
        other: Vec::new(),
        small: state.to_vec(),
    }
}

/// The ring's steps, and refusals of each kind of call.
fn ring_cases() -> Vec<Case> {
    let image = structured::ring(3).image();
    let step = |operator: u16, state: &[u8]| case(STEP, &image, operator, state, &[]);
    let case = |call: u16, state: &[u8], list: &[u16]| case(call, &image, 0, state, list);
    vec![
        case(READ, &[], &[]),
        case(INITIAL, &[7, 7, 7], &[]),
        case(INITIAL, &[7, 7], &[]),
        step(0, &[1, 0, 0]),
        step(1, &[0, 1, 0]),
        step(2, &[0, 0, 1]),
        step(1, &[0, 0, 1]),
        step(3, &[0, 0, 1]),
        step(2, &[0, 0, 2]),
        case(GOAL, &[0, 0, 1], &[]),
        case(GOAL, &[1, 0, 0], &[]),
        case(RUN, &[1, 0, 0], &[0, 1, 2, 2, 0]),
        case(RUN, &[1, 0, 0], &[0, 1, 2, 0]),
        case(RUN, &[1, 0, 0], &[]),
    ]
}

/// Every call on small tasks of each kind, and an image that is too long.
fn structured_cases() -> Vec<Case> {
    let rng = &mut Rng::new(1);
    let tasks = [
        structured::gripper(2, 2, 1),
        structured::blocks(2),
        structured::briefcase(2, 2),
        structured::transport(1, 1, 3),
    ];
    let mut cases = vec![case(READ, &[7; 8193], 0, &[], &[])];
    for task in tasks {
        let image = task.image();
        let mut state = vec![0; usize::from(task.atoms)];
        cases.push(case(INITIAL, &image, 0, &state, &[]));
        reference::state::initial(&image, &mut state).expect("a right state");
        let list = walk(rng, &image, &state);
        cases.push(case(STEP, &image, list[0], &state, &[]));
        cases.push(case(GOAL, &image, 0, &state, &[]));
        cases.push(case(RUN, &image, 0, &state, &list));
    }
    cases
}

/// Operators that add and delete one atom: without conditions, with the same, with
/// those of one row alone, with such that contradict each other. Each is applied in
/// all states of two atoms, with the goal after it; then a list of them all.
fn add_delete_cases() -> Vec<Case> {
    let conditions: [(&[u16], &[u16]); 5] = [
        (&[], &[]),
        (&[2], &[2]),
        (&[2], &[]),
        (&[], &[2]),
        (&[2], &[3]),
    ];
    let operators = conditions.map(|(add, delete)| OperatorSpec {
        precondition: Vec::new(),
        rows: vec![RowSpec::new(0, add), RowSpec::new(1, delete)],
    });
    let all = OperatorSpec::strips(&[], &[0, 1, 2, 3]);
    let task = TaskSpec {
        atoms: 2,
        initial: vec![1],
        goal: vec![0],
        operators: operators.into_iter().chain([all]).collect(),
    };
    let image = task.image();
    let mut cases = Vec::new();
    for state in [[0, 0], [0, 1], [1, 0], [1, 1]] {
        for operator in 0..6 {
            let mut after = state;
            cases.push(case(STEP, &image, operator, &state, &[]));
            reference::state::step(&image, &mut after, operator).expect("applicable");
            cases.push(case(GOAL, &image, 0, &after, &[]));
        }
        cases.push(case(RUN, &image, 0, &state, &[4, 3, 2, 1, 0, 5, 2, 6, 0]));
    }
    cases.extend(changer_cases());
    cases
}

/// A tray sent to the dock where it is, to another, and to one that is taken.
fn changer_cases() -> [Case; 3] {
    let image = structured::changer(2, 2).image();
    let state = [1, 0, 0, 1];
    [
        case(STEP, &image, 0, &state, &[]),
        case(STEP, &image, 1, &state, &[]),
        case(RUN, &image, 0, &state, &[0, 3, 3, 0, 2, 1]),
    ]
}

/// Operators that can be applied one after the other.
fn walk(rng: &mut Rng, image: &[u16], state: &[u8]) -> Vec<u16> {
    let mut walked = state.to_vec();
    let mut list = Vec::new();
    while list.len() < 12 {
        let operator = rng.below(usize::from(image[1])) as u16;
        if reference::state::step(image, &mut walked, operator).is_ok() {
            list.push(operator);
        }
    }
    list
}

fn random_case(rng: &mut Rng) -> Case {
    let image = if rng.chance(50) {
        random::small(rng).image()
    } else {
        damage::any_task_image(rng, 60)
    };
    let atoms = usize::from(*image.first().unwrap_or(&0)).min(1000);
    let operators = usize::from(*image.get(1).unwrap_or(&0));
    let state = if rng.chance(80) {
        state::valid(rng, atoms)
    } else {
        state::damaged(rng, atoms)
    };
    let list = state::list(rng, operators);
    let operator = state::operator(rng, operators);
    case(rng.below(5) as u16, &image, operator, &state, &list)
}
