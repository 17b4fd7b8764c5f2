//! Cases of the call that shows what a set says about one operator.

use crate::case::{Case, FILL};
use crate::clause::{case as lent, checker_case};
use crate::collection::Collection;
use crate::join::REFUSED;
use inputs::clauses::{self, Row};
use inputs::task::{OperatorSpec, TaskSpec};
use inputs::{state, structured, Rng};
use reference::marks::mark_bytes;
use sources::Synthesized;
use std::collections::BTreeMap;

const CLOSURE: u16 = 20;

/// Words of a random case at the most.
const MOST_WORDS: usize = 120;

/// Random cases: findings, and refusals of each number.
const FINDINGS: usize = 12;
const REFUSALS: usize = 2;

/// The numbers that the call returns.
const NUMBERS: [u32; 12] = [0, 1, 2, 3, 4, 5, 6, 7, 8, 9, 13, 19];

pub fn add_cases(collection: &mut Collection) {
    let rng = &mut Rng::new(20261121);
    let kinds = [
        one_atom(),
        ring_cases(),
        whole_bytes(),
        ten_bits(),
        complement_cases(),
        chain_cases(),
        most_atoms(rng),
        refused_images(),
        question_order(),
        structured_cases(rng),
        random_cases(rng),
    ];
    for case in kinds.concat() {
        collection.add(&case);
    }
    collection.assert_numbers(CLOSURE, &NUMBERS);
}

/// The closure of a set and an operator's precondition, into these marks.
fn case(image: &[u16], clauses: &[u16], operator: u16, marks: &[u8]) -> Case {
    let mut case = lent(CLOSURE, image, clauses, &[]);
    case.numbers[0] = operator;
    case.small = marks.to_vec();
    case
}

/// The image of a task with an operator for each precondition.
fn image(atoms: u16, preconditions: &[&[u16]]) -> Vec<u16> {
    let operators = preconditions.iter();
    let operators = operators.map(|precondition| OperatorSpec::strips(precondition, &[0]));
    let task = TaskSpec {
        atoms,
        operators: operators.collect(),
        ..TaskSpec::default()
    };
    task.image()
}

/// The words of clauses given by their literals.
fn set(clauses: &[&[u16]]) -> Vec<u16> {
    let rows: Vec<Row> = clauses.iter().map(|list| clauses::row(list)).collect();
    clauses::words(&rows)
}

/// Two bits of one byte; the six others stay. No precondition, and both.
fn one_atom() -> Vec<Case> {
    let image = image(1, &[&[], &[0], &[1]]);
    let sets = [set(&[]), set(&[&[0]]), set(&[&[1]]), set(&[&[0], &[1]])];
    let mut cases = Vec::new();
    for set in &sets {
        cases.extend((0..3).map(|operator| case(&image, set, operator, &[0xa7])));
    }
    let marks: [&[u8]; 6] = [&[0], &[255], &[1], &[0xfe, 0, 255], &[FILL as u8; 4], &[]];
    cases.extend(marks.map(|marks| case(&image, &sets[3], 0, marks)));
    cases
}

/// The ring by its clauses, by its pairs and by no clause; six bits of one byte.
fn ring_cases() -> Vec<Case> {
    let image = structured::ring(3).image();
    let pairs: [&[u16]; 3] = [&[1, 3], &[1, 5], &[3, 5]];
    let with_three = [&pairs[..], &[&[0, 2, 4]]].concat();
    let mut cases = Vec::new();
    for clauses in [set(&pairs), set(&with_three), set(&[])] {
        cases.extend((0..3).map(|operator| case(&image, &clauses, operator, &[255])));
    }
    let marks: [&[u8]; 4] = [&[0], &[0x80, 0x7f], &[FILL as u8; 9], &[]];
    cases.extend(marks.map(|marks| case(&image, &set(&pairs), 1, marks)));
    cases
}

/// Four and eight atoms: no bit of the last byte is left over.
fn whole_bytes() -> Vec<Case> {
    let four = image(4, &[&[], &[1, 2, 7]]);
    let clauses = set(&[&[0, 4], &[3, 6]]);
    let marks: [&[u8]; 5] = [&[0], &[255], &[0x5a, 0xa5], &[255, 255, 255], &[]];
    let mut cases = marks.map(|marks| case(&four, &clauses, 1, marks)).to_vec();
    cases.push(case(&four, &clauses, 0, &[255]));
    let eight = image(8, &[&[15]]);
    let clauses = set(&[&[8, 14], &[9, 11]]);
    let marks: [&[u8]; 3] = [&[255, 255], &[0x3c, 0xc3, 0x99], &[255]];
    cases.extend(marks.map(|marks| case(&eight, &clauses, 0, marks)));
    cases
}

/// Five atoms: six bits of the second byte are left over.
fn ten_bits() -> Vec<Case> {
    let image = image(5, &[&[], &[1, 8], &[9]]);
    let sets = [
        set(&[&[0, 6], &[7, 9]]),
        set(&[&[0], &[1], &[8], &[9]]),
        set(&[]),
    ];
    let mut cases = Vec::new();
    for set in &sets {
        for operator in 0..3 {
            cases.push(case(&image, set, operator, &[255, 255]));
        }
        cases.push(case(&image, set, 1, &[0, 0]));
    }
    let marks: [&[u8]; 4] = [&[0xff, 0x54, 0xff], &[FILL as u8; 2], &[255], &[]];
    cases.extend(marks.map(|marks| case(&image, &sets[0], 1, marks)));
    cases
}

/// All literals of a clause have their complement in the closure: all of them enter.
fn complement_cases() -> Vec<Case> {
    let image = image(3, &[&[1, 3, 5], &[1, 3], &[1], &[]]);
    let sets = [
        set(&[&[0, 2, 4]]),
        set(&[&[0, 2]]),
        set(&[&[0, 2], &[0, 3], &[1, 4], &[1, 5]]),
    ];
    let mut cases = Vec::new();
    for set in &sets {
        cases.extend((0..4).map(|operator| case(&image, set, operator, &[0xc0])));
    }
    cases
}

/// Every literal comes from that of the next atom, of the one before, or from both
/// literals of the first atom.
fn chain_cases() -> Vec<Case> {
    let atoms = 20u16;
    let image = image(atoms, &[&[0], &[2 * atoms - 2], &[2, 2 * atoms - 1]]);
    let pairs = |sign: u16, next: u16| {
        let pair = |atom: u16| clauses::row(&[2 * atom + sign, 2 * atom + next]);
        (0..atoms - 1).map(pair).collect::<Vec<Row>>()
    };
    let (down, up) = (pairs(0, 3), pairs(1, 2));
    let first = vec![clauses::row(&[0]), clauses::row(&[1])];
    let all = [first, pairs(0, 2), down.clone()].concat();
    let mut cases = Vec::new();
    for rows in [down, up, all] {
        let words = clauses::words(&rows);
        cases.extend((0..3).map(|operator| case(&image, &words, operator, &[0xaa; 5])));
    }
    cases
}

/// 1,024 atoms: 256 bytes of marks, one more and one less.
fn most_atoms(rng: &mut Rng) -> Vec<Case> {
    let image = image(1024, &[&[], &[0, 1023, 2047]]);
    let rows: [&[u16]; 4] = [&[1, 2046], &[1022, 2045], &[1022, 1024], &[2000]];
    let clauses = set(&rows);
    let marks = rng.bytes(256);
    vec![
        case(&image, &clauses, 1, &[FILL as u8; 256]),
        case(&image, &clauses, 0, &marks),
        case(&image, &clauses, 1, &[255; 257]),
        case(&image, &clauses, 1, &[FILL as u8; 255]),
        case(&image, &[], 0, &[FILL as u8; 256]),
    ]
}

/// Images that are refused, with wrong clauses, an operator and marks that are refused
/// as well.
fn refused_images() -> Vec<Case> {
    let mut cases = Vec::new();
    for (number, image) in REFUSED {
        let case = case(image, &[9], 65535, &[]);
        assert_eq!(case.line().0, number);
        cases.push(case);
    }
    cases.push(case(&[FILL; 8193], &[], 0, &[1, 2, 3]));
    cases
}

/// 8 before 9, 9 before 19, 19 before 13. The marks stay.
fn question_order() -> Vec<Case> {
    let ring = structured::ring(3).image();
    let without = image(5, &[]);
    let wrong = [1, 3, 65535, 1, 3, 65535];
    let right = &wrong[..3];
    let stay = [0x5a, 0x96];
    vec![
        case(&ring, &wrong[..5], 3, &[]),
        case(&ring, &wrong[..4], 0, &stay),
        case(&ring, &wrong, 3, &[]),
        case(&ring, &[6, 65535, 65535], 0, &stay),
        case(&ring, &[65535; 3], 0, &stay),
        case(&ring, &[0, 1, 65535], 0, &stay),
        case(&ring, right, 3, &[]),
        case(&ring, right, 3, &stay),
        case(&ring, right, 65535, &stay),
        case(&ring, right, 2, &stay),
        case(&ring, right, 2, &[]),
        case(&without, &[], 0, &stay),
        case(&without, right, 1024, &stay[..1]),
    ]
}

/// Small tasks of each kind by the sets that synthesis finds.
fn structured_cases(rng: &mut Rng) -> Vec<Case> {
    let tasks = [
        structured::ring(5),
        structured::gripper(1, 2, 1),
        structured::blocks(2),
        structured::briefcase(1, 2),
        structured::transport(1, 1, 2),
        structured::changer(2, 2),
    ];
    let mut cases = Vec::new();
    for image in tasks.map(|task| task.image()) {
        let words = clauses::words(&Synthesized::new(image.clone(), 3).rows);
        let length = mark_bytes(usize::from(image[0])) + rng.below(2);
        let marks = rng.bytes(length);
        let last = image[1] - 1;
        cases.extend([0, last].map(|operator| case(&image, &words, operator, &marks)));
    }
    cases
}

/// A set that was found or any, and marks of any length and content.
fn random_case(rng: &mut Rng) -> Case {
    let source = Synthesized::random(rng);
    let set = if rng.chance(50) {
        source.clause_words(rng)
    } else {
        clauses::words(&clauses::random_set(rng, source.atoms(), 6))
    };
    let mut case = checker_case(rng, &source, CLOSURE, &set);
    case.numbers[0] = state::operator(rng, usize::from(source.image[1]));
    case.small = rng.bytes(case.small.len());
    case
}

/// Random cases that are short: some with a finding, some refused with each number.
fn random_cases(rng: &mut Rng) -> Vec<Case> {
    let mut alike = BTreeMap::new();
    let mut cases = Vec::new();
    while cases.len() < FINDINGS + REFUSALS * (NUMBERS.len() - 1) {
        let case = random_case(rng);
        if !case.fits() || case.words().len() > MOST_WORDS {
            continue;
        }
        let (number, _) = case.line();
        let count = alike.entry(number).or_insert(0);
        if *count < if number == 0 { FINDINGS } else { REFUSALS } {
            *count += 1;
            cases.push(case);
        }
    }
    cases
}
