//! Cases of the calls on re-encoded tasks, and of coding.

use crate::case::{Case, FILL};
use crate::collection::Collection;
use inputs::fdr::{FdrOperatorSpec, FdrRowSpec, FdrSpec};
use inputs::{state, structured, Rng};
use sources::{fdr, Fdr, Synthesized};

const INITIAL: u16 = 10;
const STEP: u16 = 11;
const GOAL: u16 = 12;
const RUN: u16 = 13;
const ENCODE: u16 = 14;
const DECODE: u16 = 15;

pub fn add_cases(collection: &mut Collection) {
    for case in structured_cases().iter().chain(&set_and_clear_cases()) {
        collection.add(case);
    }
    let rng = &mut Rng::new(20261117);
    collection.add_random(|| {
        let source = fdr(rng);
        random_case(rng, &source)
    });
    for call in [INITIAL, GOAL, DECODE] {
        collection.assert_numbers(call, &[0, 17, 18]);
    }
    for call in [STEP, RUN] {
        collection.assert_numbers(call, &[0, 17, 18, 19, 20, 21, 22]);
    }
    collection.assert_numbers(ENCODE, &[0, 17, 18, 23]);
}

fn case(call: u16, image: &[u16], state: &[u16], atoms: &[u8]) -> Case {
    Case {
        call,
        numbers: [0, 0],
        image: image.to_vec(),
        list: state.to_vec(),
        other: Vec::new(),
        small: atoms.to_vec(),
    }
}

/// Every call on the re-encoding of small tasks of each kind, along a walk.
fn structured_cases() -> Vec<Case> {
    let rng = &mut Rng::new(2);
    let tasks = [
        structured::ring(3),
        structured::gripper(1, 2, 1),
        structured::blocks(2),
        structured::briefcase(1, 2),
        structured::transport(1, 1, 2),
    ];
    let images = tasks.map(|task| Synthesized::new(task.image(), 3).reencoded());
    images.iter().flat_map(|image| walk(rng, image)).collect()
}

/// Rows about one variable, each a kind and a value.
const SETS_AND_CLEARS: [&[(u16, u16)]; 8] = [
    &[(0, 0), (1, 0)],
    &[(1, 0), (0, 0)],
    &[(0, 1), (1, 1)],
    &[(1, 1), (0, 1), (1, 0)],
    &[(0, 0), (0, 1)],
    &[(0, 1), (1, 1), (0, 0)],
    &[(0, 1), (0, 1), (1, 0)],
    &[(1, 0), (1, 1)],
];

/// An operator of rows, each a kind, a variable and a value.
fn operator(rows: &[(u16, u16, u16)]) -> FdrOperatorSpec {
    let row = |&(kind, variable, value): &(u16, u16, u16)| FdrRowSpec {
        kind,
        variable,
        value,
        conditions: Vec::new(),
    };
    FdrOperatorSpec {
        precondition: Vec::new(),
        rows: rows.iter().map(row).collect(),
    }
}

/// A set and a clear of one value, two sets of one variable: steps from each value,
/// with and without none, the goal after some of them, and a list run.
fn set_and_clear_cases() -> Vec<Case> {
    let of_one = |rows: &[(u16, u16)]| {
        let rows: Vec<_> = rows.iter().map(|&(kind, value)| (kind, 0, value)).collect();
        operator(&rows)
    };
    let mut cases = Vec::new();
    for none in [0, 1] {
        let spec = FdrSpec {
            domains: vec![(2 + none, none)],
            atoms: vec![(0, 0), (0, 1)],
            initial: vec![0],
            goal: vec![(0, 0)],
            operators: SETS_AND_CLEARS.map(of_one).to_vec(),
        };
        let image = spec.image();
        for value in 0..2 + none {
            cases.extend((0..8).flat_map(|number| step_and_goal(&image, value, number)));
        }
        let mut run = case(RUN, &image, &[0], &[]);
        run.other = vec![0, 1, 2, 6, 3, 0, 4, 1];
        cases.push(run);
    }
    cases.extend(two_variable_cases());
    cases
}

/// A variable sent to its omitted none and another set to two values: 21 comes
/// before 22, whichever variable is lower and whichever row comes first.
fn two_variable_cases() -> Vec<Case> {
    let spec = FdrSpec {
        domains: vec![(2, 0), (2, 0)],
        atoms: vec![(0, 0), (0, 1), (1, 0), (1, 1)],
        initial: vec![0, 0],
        goal: Vec::new(),
        operators: vec![
            operator(&[(1, 0, 0), (0, 1, 0), (0, 1, 1)]),
            operator(&[(0, 0, 0), (0, 0, 1), (1, 1, 0)]),
            operator(&[(1, 0, 0), (0, 1, 1), (1, 1, 1)]),
            operator(&[(0, 0, 1), (1, 0, 0), (1, 1, 1)]),
        ],
    };
    let step = |number| {
        let mut step = case(STEP, &spec.image(), &[0, 0], &[]);
        step.numbers[0] = number;
        step
    };
    (0..4).map(step).collect()
}

/// A step of the one variable, and the goal test after it.
fn step_and_goal(image: &[u16], value: u16, operator: u16) -> Vec<Case> {
    let mut step = case(STEP, image, &[value], &[]);
    step.numbers[0] = operator;
    let mut after = [value];
    let answer = reference::fdr::step(image, &mut after, operator);
    let tested = answer.is_ok() && value == 0;
    let goal = tested.then(|| case(GOAL, image, &after, &[]));
    [step].into_iter().chain(goal).collect()
}

/// Setting, goal test and coding, some steps and a list run.
fn walk(rng: &mut Rng, image: &[u16]) -> Vec<Case> {
    let source = Fdr::of(image);
    let mut state = vec![FILL; source.spec.domains.len()];
    let mut atoms = vec![FILL as u8; source.spec.atoms.len()];
    let mut cases = vec![case(INITIAL, image, &state, &[])];
    reference::fdr::initial(image, &mut state).expect("a right state");
    cases.push(case(GOAL, image, &state, &[]));
    cases.push(case(DECODE, image, &state, &atoms));
    reference::coding::decode(image, &state, &mut atoms).expect("a right state");
    cases.push(case(ENCODE, image, &vec![FILL; state.len()], &atoms));
    let mut run = case(RUN, image, &state, &[]);
    for _ in 0..3 {
        let operator = source.operator(rng, &state);
        let mut step = case(STEP, image, &state, &[]);
        step.numbers[0] = operator;
        cases.push(step);
        run.other.push(operator);
        // A refused step leaves the state.
        let _ = reference::fdr::step(image, &mut state, operator);
    }
    cases.push(run);
    cases
}

fn random_case(rng: &mut Rng, source: &Fdr) -> Case {
    let call = rng.between(usize::from(INITIAL), usize::from(DECODE)) as u16;
    let mut case = case(call, &source.image, &source.state(rng), &[]);
    match call {
        INITIAL => case.list.fill(FILL),
        STEP => case.numbers[0] = source.operator(rng, &case.list),
        RUN => case.other = random_list(rng, source, &case.list),
        ENCODE => {
            case.small = random_atoms(rng, source);
            case.list = vec![FILL; length(rng, source.spec.domains.len())];
        }
        DECODE => case.small = vec![FILL as u8; length(rng, source.spec.atoms.len())],
        _ => {}
    }
    case
}

/// The target's length, seldom a wrong one.
fn length(rng: &mut Rng, right: usize) -> usize {
    if rng.chance(6) {
        state::wrong_length(rng, right)
    } else {
        right
    }
}

fn random_atoms(rng: &mut Rng, source: &Fdr) -> Vec<u8> {
    let atoms = source.spec.atoms.len();
    match rng.below(10) {
        0 => state::damaged(rng, atoms),
        1 => state::valid(rng, atoms),
        _ => source.spec.atom_state(rng),
    }
}

/// A list of operators, most of which can be applied one after the other.
fn random_list(rng: &mut Rng, source: &Fdr, state: &[u16]) -> Vec<u16> {
    let mut walked = state.to_vec();
    let mut list = state::list(rng, source.spec.operators.len());
    for operator in &mut list {
        *operator = source.operator(rng, &walked);
        let _ = reference::fdr::step(&source.image, &mut walked, *operator);
    }
    list
}
