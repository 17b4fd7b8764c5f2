//! The ring and the other examples of document 01.

mod common;

use common::*;
use inputs::structured;
use inputs::task::OperatorSpec;
use reference::answer::Finding;
use reference::{card, clause, closure, coding, fdr, groups, state, task};

fn found(rows: usize, rounds: usize) -> Finding {
    Finding { rows, rounds }
}

#[test]
fn the_ring_reads() {
    assert!(task::read(&RING).is_ok());
    assert_eq!(structured::ring(3).image(), RING);
}

#[test]
fn synthesis_of_the_ring() {
    let empty = vec![0; 30];
    assert_eq!(synthesis(&RING, 1, 10, 30), (Ok(found(0, 3)), empty));
    let mut three = RING_CLAUSES[3..].to_vec();
    three.resize(30, 0);
    assert_eq!(synthesis(&RING, 2, 10, 30), (Ok(found(3, 3)), three));
    let mut four = RING_CLAUSES.to_vec();
    four.resize(31, 0);
    assert_eq!(synthesis(&RING, 3, 10, 31), (Ok(found(4, 3)), four));
}

#[test]
fn synthesis_of_the_ring_refused() {
    let zeros = |words| vec![0; words];
    assert_eq!(synthesis(&RING, 2, 2, 30), (refusal(15, 0, 0), zeros(30)));
    assert_eq!(synthesis(&RING, 2, 10, 6), (refusal(14, 0, 0), zeros(6)));
    assert_eq!(synthesis(&RING, 2, 10, 8), (refusal(14, 0, 0), zeros(8)));
    assert_eq!(synthesis(&RING, 3, 2, 9), (refusal(15, 0, 0), zeros(9)));
    let untouched = vec![7; 9];
    assert_eq!(synthesis(&RING, 4, 2, 9), (refusal(12, 0, 0), untouched));
}

#[test]
fn the_checker_on_the_ring() {
    assert_eq!(check(&RING, &[2, F, F]), refusal(10, 0, 0));
    assert_eq!(check(&RING, &[0, F, F]), refusal(11, 0, 0));
    assert_eq!(check(&RING, &[1, 3, F]), refusal(11, 0, 2));
    // Document 02 §2: the lower of two false clauses; the lowest clause before
    // the lowest operator.
    assert_eq!(
        check(&RING, &[0, F, F, 2, F, F, 4, F, F]),
        refusal(10, 1, 0)
    );
    assert_eq!(check(&RING, &[0, 2, F, 0, 4, F]), refusal(11, 0, 1));
    assert_eq!(check(&RING, &RING_CLAUSES), Ok(()));
    assert_eq!(check(&RING, &[]), Ok(()));
}

/// 001's examples of preserves-clause: a, b, c, d are the atoms 0 to 3.
#[test]
fn preserves_clause() {
    let operators = [
        OperatorSpec::strips(&[5], &[4, 6]),
        OperatorSpec::strips(&[5], &[1, 2]),
        OperatorSpec::strips(&[2], &[1]),
        OperatorSpec::strips(&[5], &[1]),
        OperatorSpec::strips(&[4], &[1]),
    ];
    let image = task(4, &[], &operators);
    let answers = (0..5).map(|operator| is_kept(&image, &[2, 4, F], &[0, 2, F], operator));
    let expected = [true, true, true, true, false].map(Ok);
    assert!(answers.eq(expected));
}

/// 001's example of incompleteness: b or d or e is not kept.
#[test]
fn incompleteness() {
    let mut operator = OperatorSpec::strips(&[0], &[3, 6, 8]);
    operator.rows[1].conditions = vec![4];
    operator.rows[2].conditions = vec![5];
    let image = task(5, &[], &[operator]);
    assert_eq!(is_kept(&image, &[], &[2, 6, 8], 0), Ok(false));
}

#[test]
fn the_ring_card() {
    let mut input: Vec<u8> = Vec::new();
    for word in [2, 10].iter().chain(&RING) {
        input.extend(word.to_le_bytes());
    }
    let text = "clauses 3 rounds 3\n-0 -1\n-0 -2\n-1 -2\ngroups 1\n0 1 2 none\n";
    assert_eq!(card::card(&input), text);
    assert_eq!(card::card(&input[..3]), "refused 1 0 0\n");
    assert_eq!(card::card(&input[..4]), "refused 1 0 0\n");
    assert_eq!(card::card(&input[..73]), "refused 1 0 0\n");
    assert_eq!(card::card(&[0; 16_388]), "refused 2 0 0\n");
    assert_eq!(card::card(&[0; 16_390]), "refused 1 0 0\n");
}

#[test]
fn the_ring_reencoded() {
    let image = reencoded(&RING, &RING_CLAUSES[3..]).expect("accepted");
    let expected = [
        1, 3, 16, 2, 18, 6, 24, 1, 25, 2, 27, 12, 39, 12, 51, 12, // directory
        4, 1, 0, 0, 0, 1, 0, 2, 0, 0, 4, // domains, atoms, initial values, goal
        1, 0, 0, 2, 1, 0, 0, 0, 0, 0, 1, 0, // operators
        1, 0, 2, 2, 1, 0, 1, 0, 0, 0, 2, 0, //
        1, 0, 4, 2, 1, 0, 2, 0, 0, 0, 0, 0,
    ];
    assert_eq!(image, expected);
    assert_eq!(image.len(), 63);
    let omitted = reencoded(&RING, &RING_CLAUSES).expect("accepted");
    assert_eq!(omitted[16..18], [3, 0]);
    assert_eq!(omitted[18..], expected[18..]);
}

#[test]
fn groups_of_the_ring() {
    let mut target = [7; 9];
    let mut marks = [0];
    let answer = groups::groups(&RING, &RING_CLAUSES, &mut marks, &mut target);
    assert_eq!(answer, Ok(1));
    assert_eq!(target, [3, 0, 0, 0, 0, 1, 0, 2, 7]);
    let mut short = [7; 7];
    let answer = groups::groups(&RING, &RING_CLAUSES, &mut marks, &mut short);
    assert_eq!(answer, refusal(16, 0, 0));
    assert_eq!(short, [7; 7]);
}

/// Round the ring in both encodings, coded back and forth.
#[test]
fn round_the_ring() {
    let image = reencoded(&RING, &RING_CLAUSES[3..]).expect("accepted");
    let (mut atoms, mut values) = ([9; 3], [9; 1]);
    assert_eq!(state::initial(&RING, &mut atoms), Ok(()));
    assert_eq!(fdr::initial(&image, &mut values), Ok(()));
    for operator in [0, 1, 2, 0] {
        assert_eq!(state::step(&RING, &mut atoms, operator), Ok(()));
        assert_eq!(fdr::step(&image, &mut values, operator), Ok(()));
        let (mut coded, mut decoded) = ([9; 1], [9; 3]);
        assert_eq!(coding::encode(&image, &atoms, &mut coded), Ok(()));
        assert_eq!(coding::decode(&image, &values, &mut decoded), Ok(()));
        assert_eq!((coded, decoded), (values, atoms));
        assert_eq!(state::goal(&RING, &atoms), fdr::goal(&image, &values));
    }
    assert_eq!(state::step(&RING, &mut atoms, 0), refusal(20, 0, 0));
    assert_eq!(fdr::step(&image, &mut values, 0), refusal(20, 0, 0));
    assert_eq!(state::run(&RING, &mut atoms, &[1, 2, 3]), refusal(19, 2, 0));
    assert_eq!(fdr::run(&image, &mut values, &[1, 2, 3]), refusal(19, 2, 0));
    assert_eq!((atoms, values), ([1, 0, 0], [0]));
    assert_eq!(state::run(&RING, &mut atoms, &[0, 1]), Ok(2));
    assert_eq!(fdr::run(&image, &mut values, &[0, 1]), Ok(2));
    assert_eq!(state::goal(&RING, &atoms), Ok(true));
    assert_eq!(fdr::goal(&image, &values), Ok(true));
    assert_eq!(
        coding::encode(&image, &[1, 1, 0], &mut [9]),
        refusal(23, 0, 0)
    );
}

/// 000's running example: 63 mutexes, and with n = 3 the robot is somewhere.
#[test]
fn gripper() {
    let image = structured::gripper(4, 3, 2).image();
    let (answer, rows) = synthesis(&image, 2, 100, 30_000);
    assert_eq!(answer.map(|found| found.rows), Ok(63));
    let mutex = |row: &[u16]| row[0] % 2 == 1 && row[1] % 2 == 1 && row[1] != F && row[2] == F;
    assert!(rows[..189].chunks(3).all(mutex));
    let (answer, more) = synthesis(&image, 3, 100, 30_000);
    assert_eq!(answer.map(|found| found.rows), Ok(64));
    assert_eq!(more[..3], [0, 2, 4]);
    assert_eq!(more[3..192], rows[..189]);
}

#[test]
fn closure_of_the_ring() {
    let clauses = clause::read(&RING_CLAUSES, 3).expect("rows are right");
    let closure = closure::Closure::new(3, &clauses, &[1, 3]);
    assert!(!closure.is_contradictory());
    assert_eq!(closure.marks(), [false, true, false, true, true, false]);
    assert!(closure.extended(&clauses, &[5]).is_contradictory());
    assert!(closure::Closure::new(3, &clauses, &[0, 2]).is_contradictory());
}
