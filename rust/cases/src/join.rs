//! Cases of the call that joins two tasks.

use crate::case::{Case, FILL};
use crate::collection::Collection;
use inputs::join::{self, least_words, sized_pair, Pair};
use inputs::task::{OperatorSpec, RowSpec, TaskSpec};
use inputs::{structured, Rng};
use std::collections::BTreeMap;

const JOIN: u16 = 19;

/// Words of a random case at the most.
const MOST_WORDS: usize = 120;

/// One atom, no operator; all lists are empty, or one is, or none.
const EMPTY: &[u16] = &[1, 0, 6, 0, 6, 0];
const INITIAL: &[u16] = &[1, 0, 6, 1, 7, 0, 0];
const GOAL: &[u16] = &[1, 0, 6, 0, 6, 1, 1];
const LISTS: &[u16] = &[1, 0, 6, 1, 7, 1, 0, 1];

/// One atom, one operator that adds it.
const ADD: &[u16] = &[1, 1, 8, 0, 8, 0, 8, 4, 0, 1, 0, 0];

/// Two atoms, and an operator that moves from the second to the first, under conditions.
const MOVE: &[u16] = &[2, 1, 8, 1, 9, 2, 11, 9, 1, 0, 3, 1, 2, 2, 0, 2, 1, 2, 3, 0];

/// Images that are refused, with the number; 7 names the first operator, then the second.
pub const REFUSED: [(u32, &[u16]); 8] = [
    (1, &[1, 0, 6, 0, 6]),
    (2, &[0, 0, 6, 0, 6, 0]),
    (3, &[1, 0, 6, 65530, 0, 6]),
    (4, &[2, 0, 6, 2, 8, 0, 1, 0]),
    (5, &[2, 0, 6, 0, 6, 2, 2, 3]),
    (6, &[1, 1, 8, 0, 8, 0, 8, 0]),
    (7, &[1, 1, 8, 0, 8, 0, 8, 4, 0, 1, 2, 0]),
    (7, &[1, 2, 10, 0, 10, 0, 10, 2, 12, 3, 0, 0, 1, 2, 0]),
];

pub fn add_cases(collection: &mut Collection) {
    let rng = &mut Rng::new(20261120);
    let kinds = [
        shortest_cases(),
        without_operators(),
        refused_cases(),
        limit_cases(),
        ring_cases(),
        repeated_cases(),
        random_cases(rng),
        large_cases(rng),
    ];
    for case in kinds.concat() {
        collection.add(&case);
    }
    collection.assert_numbers(JOIN, &[0, 1, 2, 3, 4, 5, 6, 7, 27]);
}

/// Joins two images into room for so many words.
fn case(left: &[u16], right: &[u16], room: usize) -> Case {
    Case {
        call: JOIN,
        image: left.to_vec(),
        list: right.to_vec(),
        other: vec![FILL; room],
        ..Case::default()
    }
}

/// Joins two right images into exactly enough room.
fn exact(left: &[u16], right: &[u16]) -> Case {
    case(left, right, left.len() + right.len() - 6)
}

/// The image of a task of so many atoms without operators.
fn wide(atoms: u16) -> Vec<u16> {
    [&[atoms], &EMPTY[1..]].concat()
}

/// One of each kind: joined, refused by the target, by the atoms, by the first image
/// before the second, by the second before the target. Images of sevens are not stored.
fn shortest_cases() -> Vec<Case> {
    vec![
        exact(LISTS, ADD),
        exact(EMPTY, EMPTY),
        case(EMPTY, EMPTY, 5),
        exact(&wide(1023), &wide(2)),
        case(&[], &[FILL; 8193], 0),
        case(EMPTY, &[FILL; 6], 0),
        case(&[FILL; 6], &[], 8),
    ]
}

/// M = 0 on both sides with each pair of lists, and on either side; room for a word
/// more, which stays.
fn without_operators() -> Vec<Case> {
    let images = [EMPTY, INITIAL, GOAL, LISTS];
    let both = images.map(|left| images.map(|right| exact(left, right)));
    let mut cases = both.concat();
    for image in images {
        let words = image.len() + ADD.len() - 5;
        cases.extend([case(image, ADD, words), case(ADD, image, words)]);
    }
    cases
}

/// Each refusal of the first image and of the second, with 27 due as well: by the target,
/// by the atoms. The first's comes before the second's.
fn refused_cases() -> Vec<Case> {
    let widest = wide(1024);
    let mut cases = Vec::new();
    for (place, &(number, image)) in REFUSED.iter().enumerate() {
        let (_, next) = REFUSED[(place + 1) % REFUSED.len()];
        let refused = [
            case(image, EMPTY, 0),
            case(EMPTY, image, 0),
            case(image, &widest, 20),
            case(&widest, image, 20),
            case(image, next, 20),
        ];
        for case in refused {
            assert_eq!(case.line().0, number);
            cases.push(case);
        }
    }
    cases
}

/// 1,024 atoms, one more, and twice as many; the highest atom and literal.
fn limit_cases() -> Vec<Case> {
    let most = [(1023, 1), (1, 1023), (512, 512)];
    let more = [(1, 1024), (1024, 1), (513, 512), (1024, 1024)];
    let pairs = most.iter().chain(&more);
    let mut cases: Vec<Case> = pairs
        .map(|&(left, right)| exact(&wide(left), &wide(right)))
        .collect();
    for image in [LISTS, ADD] {
        cases.push(exact(&wide(1023), image));
        cases.push(exact(&wide(1024), image));
    }
    cases
}

/// The ring with itself into targets of some lengths, and with other tasks.
fn ring_cases() -> Vec<Case> {
    let ring = structured::ring(3).image();
    let rooms = [0, 1, 63, 64, 65, 70];
    let mut cases = rooms.map(|room| case(&ring, &ring, room)).to_vec();
    cases.extend([exact(MOVE, MOVE), exact(ADD, MOVE), exact(ADD, ADD)]);
    let others = [
        EMPTY.to_vec(),
        LISTS.to_vec(),
        MOVE.to_vec(),
        structured::ring(2).image(),
        structured::changer(2, 2).image(),
        structured::briefcase(1, 2).image(),
    ];
    for other in others {
        cases.extend([exact(&ring, &other), exact(&other, &ring)]);
    }
    cases
}

/// Operators that add and delete one atom, rows and operators repeated, the same
/// conditions in several rows.
fn repeated_cases() -> Vec<Case> {
    let rows = [
        (0, &[2, 5][..]),
        (0, &[2, 5]),
        (1, &[2, 5]),
        (0, &[]),
        (1, &[]),
    ];
    let operator = OperatorSpec {
        precondition: vec![3, 4],
        rows: rows.map(|(effect, on)| RowSpec::new(effect, on)).to_vec(),
    };
    let repeated = TaskSpec {
        atoms: 3,
        initial: vec![0, 1, 2],
        goal: vec![1, 3, 5],
        operators: vec![operator; 2],
    };
    let all = OperatorSpec::strips(&[0, 3], &[0, 1, 2, 3]);
    let add_delete = TaskSpec {
        atoms: 2,
        initial: vec![1],
        goal: vec![0],
        operators: vec![all, OperatorSpec::default()],
    };
    let images = [repeated.image(), add_delete.image()];
    let pairs = images
        .iter()
        .flat_map(|left| images.iter().map(move |right| (left, right)));
    pairs.map(|(left, right)| exact(left, right)).collect()
}

/// Random pairs that are short: eight joined, one refused with each number.
fn random_cases(rng: &mut Rng) -> Vec<Case> {
    let mut alike = BTreeMap::new();
    let mut cases = Vec::new();
    while cases.len() < 8 + 8 {
        let pair = join::any(rng);
        let case = case(&pair.left, &pair.right, pair.target_words(rng));
        if !case.fits() || case.other.len() > MOST_WORDS || case.words().len() > MOST_WORDS {
            continue;
        }
        let (number, _) = case.line();
        let count = alike.entry(number).or_insert(0);
        if *count < if number == 0 { 8 } else { 1 } {
            *count += 1;
            cases.push(case);
        }
    }
    cases
}

/// An operator too many; 1,024 atoms, 1,024 operators and 8,192 words; a word too many.
fn large_cases(rng: &mut Rng) -> Vec<Case> {
    let sizes = [
        (2, 1025, least_words(1025)),
        (1024, 1024, 8192),
        (300, 200, 8193),
    ];
    let joined = sizes.map(|(atoms, operators, words)| {
        let Pair { left, right } = sized_pair(rng, atoms, operators, words);
        exact(&left, &right)
    });
    joined.to_vec()
}
