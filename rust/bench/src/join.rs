//! Joining the largest images: the joined one has 8,192 words, 1,024 atoms and up to
//! 1,024 operators. Also two images that are too large together.

use inputs::join::{least_words, sized, some_literals};
use inputs::task::{OperatorSpec, RowSpec, TaskSpec};
use inputs::{random, Rng};
use reference::join as model;

use crate::timing::Bench;

const JOINS: usize = 1_000;
const ATOMS: usize = 512;

/// The words of each image, so that the joined one has 8,192.
const WORDS: usize = 4099;

pub fn run(bench: &Bench) {
    let rng = &mut Rng::new(5);
    for operators in [512, 64, 4] {
        let room = WORDS - least_words(operators);
        let [left, right] = [0, 1].map(|_| sized(rng, ATOMS, operators, room));
        let name = format!("{} operators", 2 * operators);
        joined(bench, &name, &left, &right);
    }
    let [left, right] = [0, 1].map(|_| long_lists(rng));
    joined(bench, "long lists", &left, &right);
    let [left, right] = [0, 1].map(|_| random::largest(rng).image());
    let name = "join two images of 8192 words, refused 27 by kb_join";
    join(bench, name, &left, &right);
}

/// A task with as many initial atoms and goal literals as there are atoms, and one
/// operator that has all literals it can in one precondition and few rows.
fn long_lists(rng: &mut Rng) -> TaskSpec {
    let mut literals = |count| some_literals(rng, ATOMS, count);
    let (goal, precondition) = (literals(ATOMS), literals(ATOMS));
    let mut task = TaskSpec {
        atoms: ATOMS as u16,
        initial: (0..ATOMS as u16).collect(),
        goal,
        operators: vec![OperatorSpec {
            precondition,
            rows: Vec::new(),
        }],
    };
    let mut room = WORDS - least_words(1) - 3 * ATOMS;
    while room > 0 {
        let conditions = literals((room - 2).min(ATOMS - 1));
        room -= 2 + conditions.len();
        let row = RowSpec::new(0, &conditions);
        task.operators[0].rows.push(row);
    }
    task
}

fn joined(bench: &Bench, name: &str, left: &TaskSpec, right: &TaskSpec) {
    let (left, right) = (left.image(), right.image());
    assert_eq!([left.len(), right.len()], [WORDS; 2]);
    let name = format!("join to 8192 words, {name}, by kb_join");
    join(bench, &name, &left, &right);
}

fn join(bench: &Bench, name: &str, left: &[u16], right: &[u16]) {
    bench.compare(
        name,
        JOINS,
        &vec![0; 8192],
        |target| {
            let replies = (0..JOINS).map(|_| kulabismuth::join(left, right, target));
            (replies.last(), target.clone())
        },
        |target| {
            let replies = (0..JOINS).map(|_| model::join(left, right, target).into());
            (replies.last(), target.clone())
        },
    );
}
