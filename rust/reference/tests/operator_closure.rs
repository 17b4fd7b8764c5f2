//! Marks in bits and the whole closure for one operator (document 02 §7).

mod common;

use std::collections::BTreeSet;

use common::*;
use inputs::task::OperatorSpec;
use inputs::{clauses, random, Rng};
use reference::closure::Closure;
use reference::literal::{literals, Literal};
use reference::marks::{is_marked, mark_bytes, put_mark, MOST_MARK_BYTES};
use reference::operator_closure::{operator_closure, whole_closure};
use reference::synthesis::synthesize;
use reference::{agreement, checker, clause, groups, kept, naive, reencoding, Answer};

/// A task with an operator for each precondition.
fn image(atoms: u16, preconditions: &[&[u16]]) -> Vec<u16> {
    let operators = preconditions.iter();
    let operators = operators.map(|precondition| OperatorSpec::strips(precondition, &[0]));
    task(atoms, &[], &operators.collect::<Vec<_>>())
}

/// The words of clauses given by their literals.
fn set(clauses: &[&[u16]]) -> Vec<u16> {
    let rows: Vec<_> = clauses.iter().map(|list| clauses::row(list)).collect();
    clauses::words(&rows)
}

/// The call, and the marks after it.
fn call(image: &[u16], set: &[u16], operator: u16, marks: &[u8]) -> (Answer<usize>, Vec<u8>) {
    let mut marks = marks.to_vec();
    let answer = operator_closure(image, set, operator, &mut marks);
    (answer, marks)
}

#[test]
fn bytes_of_marks() {
    let sizes = [
        (1, 1),
        (3, 1),
        (4, 1),
        (5, 2),
        (8, 2),
        (9, 3),
        (1023, 256),
        (1024, 256),
    ];
    for (atoms, bytes) in sizes {
        assert_eq!(mark_bytes(atoms), bytes);
    }
    assert!((1..=1024).all(|atoms| (0..4).contains(&(4 * mark_bytes(atoms) - atoms))));
    assert_eq!(MOST_MARK_BYTES, 256);
}

/// Literal l is bit l mod 8, lowest first, of byte l/8.
#[test]
fn places_of_bits() {
    let mut marks = [0; 3];
    for word in [0, 3, 8, 15, 17] {
        put_mark(&mut marks, Literal(word), true);
    }
    assert_eq!(marks, [0b0000_1001, 0b1000_0001, 0b0000_0010]);
    let marked = (0..24).filter(|&word| is_marked(&marks, Literal(word)));
    assert!(marked.eq([0, 3, 8, 15, 17]));
    let mut marks = [0b1111_1111; 3];
    for word in [1, 9, 10, 23] {
        put_mark(&mut marks, Literal(word), false);
    }
    assert_eq!(marks, [0b1111_1101, 0b1111_1001, 0b0111_1111]);
}

/// N = 1: two bits of one byte; the six others stay, and so do bytes behind.
#[test]
fn one_atom() {
    let image = image(1, &[&[], &[0], &[1]]);
    let both = set(&[&[0], &[1]]);
    assert_eq!(
        call(&image, &[], 0, &[0b1111_1111]),
        (Ok(0), vec![0b1111_1100])
    );
    assert_eq!(call(&image, &[], 1, &[0b1010_1010]).1, [0b1010_1001]);
    assert_eq!(call(&image, &[], 2, &[0b1010_1001]).1, [0b1010_1010]);
    for operator in 0..3 {
        let contradictory = call(&image, &both, operator, &[0b0101_0100, 9]);
        assert_eq!(contradictory, (Ok(2), vec![0b0101_0111, 9]));
    }
    assert_eq!(call(&image, &both[..3], 2, &[0]), (Ok(2), vec![3]));
    assert_eq!(call(&image, &both, 0, &[]), (refusal(13, 0, 0), vec![]));
}

/// N = 4: eight bits, exactly one byte.
#[test]
fn one_whole_byte() {
    let image = image(4, &[&[1, 7]]);
    let rows = set(&[&[0, 4], &[3, 6]]);
    // -0 forces +2, -3 forces -1.
    let marks = 0b1001_1010;
    assert_eq!(call(&image, &rows, 0, &[0]), (Ok(4), vec![marks]));
    assert_eq!(call(&image, &rows, 0, &[255, 0]), (Ok(4), vec![marks, 0]));
    assert_eq!(call(&image, &rows, 0, &[0, 255]).1, [marks, 255]);
    assert_eq!(call(&image, &[], 0, &[255]), (Ok(2), vec![0b1000_0010]));
    assert_eq!(call(&image, &rows, 0, &[]).0, refusal(13, 0, 0));
}

/// N = 5: ten bits; six bits of the second byte stay.
#[test]
fn ten_bits() {
    let image = image(5, &[&[1, 8], &[9]]);
    let rows = set(&[&[0, 6], &[2, 9]]);
    // -0 forces +3, +4 forces +1.
    let first = 0b0100_0110;
    assert_eq!(
        call(&image, &rows, 0, &[255, 255]),
        (Ok(4), vec![first, 0b1111_1101])
    );
    assert_eq!(
        call(&image, &rows, 0, &[0, 0b0101_0110]),
        (Ok(4), vec![first, 0b0101_0101])
    );
    assert_eq!(call(&image, &rows, 1, &[0, 0, 77]), (Ok(1), vec![0, 2, 77]));
    let short = call(&image, &rows, 0, &[99]);
    assert_eq!(short, (refusal(13, 0, 0), vec![99]));
}

/// All literals of a clause have their complement in the closure: all of them enter,
/// and what follows from them.
#[test]
fn complements_do_not_stop_it() {
    let image = image(3, &[&[1, 3, 5], &[1, 3], &[]]);
    let three = set(&[&[0, 2, 4]]);
    assert_eq!(call(&image, &three, 0, &[0]), (Ok(6), vec![63]));
    assert_eq!(call(&image, &three, 1, &[0]), (Ok(3), vec![0b01_1010]));
    let two = set(&[&[0, 2]]);
    assert_eq!(call(&image, &two, 1, &[0]), (Ok(4), vec![0b00_1111]));
    // From both literals of atom 0 both of every other follow.
    let all = set(&[&[0], &[1], &[0, 2], &[0, 3], &[2, 4], &[2, 5]]);
    assert_eq!(call(&image, &all, 2, &[0]), (Ok(6), vec![63]));
    // Both literals of atom 2 say nothing of the others.
    let last = set(&[&[4], &[5], &[0, 2]]);
    assert_eq!(call(&image, &last, 2, &[0]), (Ok(2), vec![0b11_0000]));
}

/// 13 after 19, 19 after 9; the marks stay.
#[test]
fn questions() {
    let set = &RING_CLAUSES;
    let refused = |image: &[u16], set: &[u16], operator, marks: &[u8]| {
        let (answer, after) = call(image, set, operator, marks);
        assert_eq!(after, marks);
        answer.map_err(|refusal| (refusal.number, refusal.first, refusal.second))
    };
    assert_eq!(refused(&[1], &[5], 9, &[]), Err((1, 0, 0)));
    assert_eq!(refused(&RING[1..], &[5], 9, &[]), Err((3, 0, 0)));
    assert_eq!(refused(&RING, &set[1..], 3, &[]), Err((8, 0, 0)));
    assert_eq!(refused(&RING, &[F; 30_003], 3, &[]), Err((8, 0, 0)));
    let twice = [0, F, F, 0, F, F];
    assert_eq!(refused(&RING, &twice, 3, &[]), Err((9, 1, 0)));
    assert_eq!(refused(&RING, set, 3, &[]), Err((19, 0, 0)));
    assert_eq!(refused(&RING, set, 65535, &[200]), Err((19, 0, 0)));
    assert_eq!(refused(&RING, set, 2, &[]), Err((13, 0, 0)));
    assert_eq!(call(&RING, set, 2, &[192]), (Ok(3), vec![0b1101_1010]));
}

/// What was found for the ring says where the token is not.
#[test]
fn the_ring() {
    let closures = [0b10_1001, 0b10_0110, 0b01_1010];
    for (operator, closure) in (0..).zip(closures) {
        let found = call(&RING, &RING_CLAUSES, operator, &[0]);
        assert_eq!(found, (Ok(3), vec![closure]));
    }
}

/// The most atoms: the last literal is the highest bit of byte 255.
#[test]
fn most_atoms() {
    let image = image(1024, &[&[0], &[2047]]);
    let rows = set(&[&[1, 2047], &[1022, 2046]]);
    let (answer, marks) = call(&image, &rows, 0, &[255; 257]);
    let expected = [&[1][..], &[0; 126], &[0b0100_0000], &[0; 127], &[128, 255]].concat();
    assert_eq!((answer, marks), (Ok(3), expected));
    let short = call(&image, &rows, 0, &[3; 255]);
    assert_eq!(short, (refusal(13, 0, 0), vec![3; 255]));
}

/// The plain loop against document 01's sentence, and, where it is not contradictory,
/// against the closure that stops.
#[test]
fn closures_agree() {
    let rng = &mut Rng::new(71);
    let mut contradictory = 0;
    for _ in 0..20_000 {
        let atoms = rng.between(1, 7);
        let rows = clauses::words(&clauses::random_set(rng, atoms, 10));
        let rows = clause::read(&rows, atoms).expect("right rows");
        let start = random::literal_list(rng, atoms, 3);
        let held = whole_closure(atoms, &rows, &start);
        let slow_set = rows.iter().copied().collect();
        let slow = naive::closure(&slow_set, &literals(&start).collect());
        let words = (0u16..).zip(&held).filter(|&(_, &held)| held);
        let whole: BTreeSet<Literal> = words.map(|(word, _)| Literal(word)).collect();
        assert_eq!(whole, slow, "{rows:?} {start:?}");
        let stopping = Closure::new(atoms, &rows, &start);
        assert_eq!(stopping.is_contradictory(), naive::is_contradictory(&whole));
        contradictory += usize::from(stopping.is_contradictory());
        assert!(stopping.is_contradictory() || stopping.marks() == held);
    }
    assert!((3_000..17_000).contains(&contradictory), "{contradictory}");
}

/// Every call that is lent marks asks for a bit for each literal, and no more.
#[test]
fn every_call_asks_for_the_new_size() {
    for atoms in 1..=12 {
        let image = image(atoms, &[&[0]]);
        let rows = set(&[&[1, 2 * atoms - 2]]);
        let rows: &[u16] = if atoms > 1 { &rows } else { &[] };
        let clause = [0, F, F];
        let needed = usize::from(atoms).div_ceil(4);
        for length in 0..=needed + 1 {
            let marks = &mut vec![85; length];
            let mut target = vec![0; 400];
            let (mut buffer, mut work) = (vec![0; 90], vec![0; 90]);
            let numbers = [
                number(kept::kept(&image, rows, &clause, 0, marks)),
                number(checker::check(&image, rows, marks)),
                number(groups::groups(&image, rows, marks, &mut target)),
                number(reencoding::reencode(&image, rows, marks, &mut target)),
                number(agreement::agree(&image, rows, &[0, 0], marks)),
                number(synthesize(&image, 1, 9, &mut buffer, &mut work, marks)),
                number(operator_closure(&image, rows, 0, marks)),
            ];
            let expected = if length < needed { 13 } else { 0 };
            assert_eq!(numbers, [expected; 7], "{atoms} {length}");
        }
    }
}

/// The refusal's number, or 0.
fn number<T>(answer: Answer<T>) -> u32 {
    answer.err().map_or(0, |refusal| refusal.number)
}
