//! Cases of the calls on clauses: kept, checker, synthesis, groups and
//! re-encoding.

use crate::case::{Case, FILL};
use crate::collection::Collection;
use inputs::add_delete::{self, Judged};
use inputs::clauses::{self, FILL as NONE};
use inputs::fixed::kept_cases;
use inputs::task::{OperatorSpec, TaskSpec};
use inputs::{damage, state, structured, Rng};
use reference::marks::mark_bytes;
use reference::{synthesis, task};
use sources::{marks_length, target_length, Synthesized};

const KEPT: u16 = 5;
const CHECK: u16 = 6;
const SYNTHESIZE: u16 = 7;
const GROUPS: u16 = 8;
const REENCODE: u16 = 9;

pub fn add_cases(collection: &mut Collection) {
    let fixed = [
        ring_cases(),
        fixed_kept_cases(),
        add_delete_cases(),
        structured_cases(),
    ];
    for case in fixed.iter().flatten() {
        collection.add(case);
    }
    let rng = &mut Rng::new(20261116);
    collection.add_random(|| {
        let source = Synthesized::random(rng);
        let call = [kept, check, synthesize, groups, reencode];
        rng.pick(&call)(rng, &source)
    });
    collection.assert_numbers(KEPT, &[0, 1, 2, 3, 4, 5, 6, 7, 8, 9, 13, 19]);
    collection.assert_numbers(CHECK, &[0, 1, 2, 3, 4, 5, 6, 7, 8, 9, 10, 11, 13]);
    collection.assert_numbers(SYNTHESIZE, &[0, 1, 2, 3, 4, 5, 6, 7, 12, 13, 14, 15]);
    for call in [GROUPS, REENCODE] {
        collection.assert_numbers(call, &[0, 1, 2, 3, 4, 5, 6, 7, 8, 9, 10, 11, 13, 16]);
    }
}

/// A call that is lent a clause set, another list and as many marks as needed.
pub fn case(call: u16, image: &[u16], clauses: &[u16], other: &[u16]) -> Case {
    Case {
        call,
        numbers: [0, 0],
        image: image.to_vec(),
        list: clauses.to_vec(),
        other: other.to_vec(),
        small: vec![FILL as u8; mark_bytes(usize::from(image[0]))],
    }
}

/// A synthesis with buffers of this many words.
fn synthesis_case(image: &[u16], n: u16, limit: u16, words: usize) -> Case {
    let mut case = case(SYNTHESIZE, image, &vec![FILL; words], &vec![FILL; words]);
    case.numbers = [n, limit];
    case
}

/// Document 01's examples of the ring, and two sets that fail twice.
fn ring_cases() -> Vec<Case> {
    let image = structured::ring(3).image();
    let check = |rows: &[u16]| case(CHECK, &image, rows, &[]);
    let synthesis = |n, limit, words| synthesis_case(&image, n, limit, words);
    vec![
        synthesis(1, 10, 31),
        synthesis(2, 10, 31),
        synthesis(3, 10, 31),
        synthesis(2, 2, 31),
        synthesis(2, 10, 6),
        synthesis(3, 2, 9),
        synthesis(0, 10, 9),
        synthesis(4, 10, 9),
        synthesis(2, 0, 9),
        check(&[2, NONE, NONE]),
        check(&[0, NONE, NONE]),
        check(&[1, 3, NONE]),
        check(&[0, NONE, NONE, 2, NONE, NONE, 4, NONE, NONE]),
        check(&[0, 2, NONE, 0, 4, NONE]),
        check(&[1, 3, NONE, 1, 5, NONE, 3, 5, NONE]),
        check(&[]),
    ]
}

/// The cases that tell readings of "Kept clauses" apart.
fn fixed_kept_cases() -> Vec<Case> {
    let cases = kept_cases();
    let kept = cases
        .iter()
        .map(|kept| case(KEPT, &kept.image, &kept.clauses, &kept.clause));
    kept.collect()
}

/// Operators that add and delete one atom: kept clauses, many with two negative
/// literals, checker and synthesis.
fn add_delete_cases() -> Vec<Case> {
    let mut both = TaskSpec {
        atoms: 2,
        operators: vec![OperatorSpec::strips(&[], &[0, 1, 2, 3])],
        ..TaskSpec::default()
    };
    let image = both.image();
    let rows = [
        [0, NONE, NONE],
        [1, NONE, NONE],
        [0, 2, NONE],
        [0, 3, NONE],
        [1, 3, NONE],
    ];
    let mut cases: Vec<Case> = rows
        .map(|row| case(KEPT, &image, &[], &row))
        .into_iter()
        .chain(rows.map(|row| case(CHECK, &image, &row, &[])))
        .collect();
    cases.extend((1..=3).map(|n| synthesis_case(&image, n, 65535, 30)));
    both.initial = vec![0, 1];
    cases.push(synthesis_case(&both.image(), 2, 65535, 30));
    let rng = &mut Rng::new(20261119);
    for _ in 0..30 {
        cases.push(judged_case(rng));
        let image = add_delete::late_task(rng).image();
        cases.push(synthesis_case(&image, rng.between(2, 3) as u16, 65535, 90));
    }
    cases
}

/// A clause and a set made for the task's operator.
fn judged_case(rng: &mut Rng) -> Case {
    let Judged { task, set, clause } = add_delete::judged(rng);
    case(KEPT, &task.image(), &clauses::words(&set), &clause)
}

/// Synthesis, checker, groups and re-encoding of small tasks of each kind.
fn structured_cases() -> Vec<Case> {
    let tasks = [
        structured::ring(3),
        structured::ring(5),
        structured::gripper(1, 2, 1),
        structured::blocks(2),
        structured::briefcase(1, 2),
        structured::briefcase(2, 2),
        structured::transport(1, 1, 2),
        structured::changer(2, 2),
    ];
    let mut cases = vec![case(CHECK, &[FILL; 8193], &[], &[])];
    for image in tasks.map(|task| task.image()) {
        for n in 1..=3 {
            cases.push(synthesis_case(&image, n, 65535, 150));
        }
        let words = clauses::words(&Synthesized::new(image.clone(), 3).rows);
        cases.push(case(CHECK, &image, &words, &[]));
        cases.push(case(GROUPS, &image, &words, &[FILL; 60]));
        cases.push(case(REENCODE, &image, &words, &[FILL; 260]));
    }
    cases
}

/// The image, now and then damaged, with a clause set and marks for it.
pub fn checker_case(rng: &mut Rng, source: &Synthesized, call: u16, clauses: &[u16]) -> Case {
    let mut image = source.image.clone();
    if rng.chance(12) {
        damage::task_image(rng, &mut image);
    }
    Case {
        call,
        numbers: [0, 0],
        image,
        list: clauses.to_vec(),
        other: Vec::new(),
        small: vec![FILL as u8; marks_length(rng, source.atoms())],
    }
}

/// One clause under one operator; the clause is of the set or any.
fn kept(rng: &mut Rng, source: &Synthesized) -> Case {
    let set = source.clause_words(rng);
    let mut case = checker_case(rng, source, KEPT, &set);
    case.numbers[0] = state::operator(rng, usize::from(source.image[1]));
    case.other = match rng.place(source.rows.len()) {
        Some(place) if rng.chance(60) => source.rows[place].to_vec(),
        _ => clauses::random_row(rng, source.atoms()).to_vec(),
    };
    if rng.chance(8) {
        clauses::damage(rng, source.atoms(), &mut case.other);
    }
    case
}

fn check(rng: &mut Rng, source: &Synthesized) -> Case {
    let set = source.clause_words(rng);
    checker_case(rng, source, CHECK, &set)
}

/// A synthesis whose buffers and limit are just enough, or not.
fn synthesize(rng: &mut Rng, source: &Synthesized) -> Case {
    let task = task::read(&source.image).expect("a right image");
    let n = rng.between(1, 3);
    let found = synthesis::run(&task, n, 65535, synthesis::MOST_ROWS);
    let (rounds, largest) = found.map_or((1, 1), |found| (found.rounds, found.largest));
    let rows = *rng.pick(&[largest - 1, largest, largest, largest + 2]);
    let words = 3 * rows + rng.below(3);
    let limits = [0, 1, rounds - 1, rounds, rounds, rounds + 1, 65535];
    let mut case = checker_case(rng, source, SYNTHESIZE, &vec![FILL; words]);
    case.other = vec![FILL; *rng.pick(&[words, words, words, words + 1, words.saturating_sub(1)])];
    case.numbers = [
        *rng.pick(&[n, n, n, n, 0, 4]) as u16,
        *rng.pick(&limits) as u16,
    ];
    case
}

/// The set found or any, with a target that is just enough, or not.
fn with_target(rng: &mut Rng, source: &Synthesized, call: u16) -> Case {
    let set = if rng.chance(40) {
        clauses::words(&source.rows)
    } else {
        source.clause_words(rng)
    };
    let mut case = checker_case(rng, source, call, &set);
    let needed = if call == GROUPS {
        4 * source.atoms()
    } else {
        source.reencoded().len()
    };
    case.other = vec![FILL; target_length(rng, needed)];
    case
}

fn groups(rng: &mut Rng, source: &Synthesized) -> Case {
    with_target(rng, source, GROUPS)
}

fn reencode(rng: &mut Rng, source: &Synthesized) -> Case {
    with_target(rng, source, REENCODE)
}
