//! The order of the questions, the places named, and the buffers after a refusal.

mod common;

use common::*;
use inputs::fdr::{foreign, FdrSpec};
use inputs::structured;
use inputs::task::OperatorSpec;
use inputs::Rng;
use reference::{checker, coding, fdr, kept, reencoding, state, task};

fn reading(image: &[u16]) -> (u32, u64) {
    match task::read(image) {
        Ok(_) => (0, 0),
        Err(refusal) => {
            assert_eq!(refusal.second, 0);
            (refusal.number, refusal.first)
        }
    }
}

#[test]
fn reading_questions() {
    assert_eq!(reading(&[1, 0, 6, 0, 6]), (1, 0));
    assert_eq!(reading(&[0; 8193]), (1, 0));
    assert_eq!(reading(&[0, 0, 6, 0, 6, 0]), (2, 0));
    assert_eq!(reading(&[1025, 0, 6, 0, 6, 0]), (2, 0));
    assert_eq!(reading(&[1024, 1025, 6, 0, 6, 0]), (2, 0));
    assert_eq!(reading(&[1024, 1024, 6, 0, 6, 0]), (3, 0));
    assert_eq!(reading(&[1, 0, 6, 65530, 0, 6]), (3, 0));
    assert_eq!(reading(&[1, 0, 6, 0, 6, 0, 0]), (3, 0));
    assert_eq!(reading(&[1, 0, 6, 1, 7, 0, 1]), (4, 0));
    assert_eq!(reading(&[2, 0, 6, 2, 8, 0, 1, 1]), (4, 0));
    assert_eq!(reading(&[2, 0, 6, 0, 6, 2, 2, 3]), (5, 0));
    assert_eq!(reading(&[2, 0, 6, 0, 6, 1, 4]), (5, 0));
    assert_eq!(reading(&[1024, 0, 6, 1, 7, 1, 1023, 2047]), (0, 0));
}

#[test]
fn reading_operators() {
    let block = |words: &[u16]| inputs::task::lay_out(1, 1, &[vec![], vec![], words.to_vec()]);
    assert_eq!(reading(&block(&[0, 0])), (0, 0));
    assert_eq!(reading(&block(&[])), (6, 0));
    assert_eq!(reading(&block(&[0])), (6, 0));
    assert_eq!(reading(&block(&[0, 0, 0])), (6, 0));
    assert_eq!(reading(&block(&[0, 1, 0])), (6, 0));
    assert_eq!(reading(&block(&[65535, 0])), (6, 0));
    assert_eq!(reading(&block(&[0, 65535, 0, 0])), (6, 0));
    assert_eq!(reading(&block(&[0, 1, 0, 65535])), (6, 0));
    assert_eq!(reading(&block(&[1, 2, 0])), (7, 0));
    assert_eq!(reading(&block(&[0, 1, 2, 0])), (7, 0));
    assert_eq!(reading(&block(&[0, 1, 1, 2, 0, 1])), (7, 0));
    // Question 7 of one operator comes before 6 of the next.
    let blocks = |first: &[u16], second: &[u16]| {
        let parts = [vec![], vec![], first.to_vec(), second.to_vec()];
        reading(&inputs::task::lay_out(1, 2, &parts))
    };
    assert_eq!(blocks(&[1, 2, 0], &[]), (7, 0));
    assert_eq!(blocks(&[1, 1, 0], &[]), (6, 1));
    assert_eq!(blocks(&[0, 0], &[1, 5, 0]), (7, 1));
}

#[test]
fn task_states() {
    let mut long = [5; 4];
    assert_eq!(state::initial(&RING, &mut long), refusal(18, 0, 0));
    assert_eq!(long, [5; 4]);
    let mut garbage = [5; 3];
    assert_eq!(state::initial(&RING, &mut garbage), Ok(()));
    assert_eq!(garbage, [1, 0, 0]);
    let mut state = [1, 0, 2];
    assert_eq!(state::step(&RING, &mut state, 9), refusal(18, 0, 0));
    assert_eq!(state::goal(&RING, &state), refusal(18, 0, 0));
    assert_eq!(state::run(&RING, &mut state, &[]), refusal(18, 0, 0));
    let mut state = [1, 0, 0];
    assert_eq!(state::step(&RING, &mut state, 3), refusal(19, 0, 0));
    assert_eq!(state::step(&RING, &mut state, 1), refusal(20, 0, 0));
    assert_eq!(state::run(&RING, &mut state, &[]), Ok(0));
    assert_eq!(state::run(&RING, &mut state, &[0, 0, 1]), refusal(20, 1, 0));
    assert_eq!(state, [0, 1, 0]);
    assert_eq!(state::goal(&RING, &state), Ok(false));
}

/// Conditions are read before the step. An atom both deleted and added ends true.
#[test]
fn conditions_and_both_literals() {
    let mut swap = OperatorSpec::strips(&[], &[0, 1, 2, 3]);
    for (row, condition) in swap.rows.iter_mut().zip([2, 3, 0, 1]) {
        row.conditions = vec![condition];
    }
    let both = OperatorSpec::strips(&[], &[0, 1]);
    let image = common::task(2, &[], &[swap, both]);
    let mut state = [1, 0];
    assert_eq!(state::run(&image, &mut state, &[0, 0, 0]), Ok(3));
    assert_eq!(state, [0, 1]);
    assert_eq!(state::step(&image, &mut state, 1), Ok(()));
    assert_eq!(state, [1, 1]);
    assert_eq!(
        state::run(&image, &mut state, &[1, 2, 0]),
        refusal(19, 1, 0)
    );
    assert_eq!(state, [1, 1]);
}

#[test]
fn kept_questions() {
    let set = RING_CLAUSES;
    let right = [1, 3, F];
    assert_eq!(is_kept(&[1], &set, &right, 0), refusal(1, 0, 0));
    assert_eq!(is_kept(&RING, &set[1..], &right, 0), refusal(8, 0, 0));
    assert_eq!(is_kept(&RING, &[F; 30_003], &right, 0), refusal(8, 0, 0));
    assert_eq!(
        is_kept(&RING, &[0, F, F, 0, 2, F], &right, 0),
        refusal(9, 1, 0)
    );
    assert_eq!(is_kept(&RING, &[0, 2, F, 0, F, F], &right, 0), Ok(true));
    assert_eq!(is_kept(&RING, &[0, F, 2], &right, 0), refusal(9, 0, 0));
    assert_eq!(is_kept(&RING, &[F, F, F], &right, 0), refusal(9, 0, 0));
    assert_eq!(is_kept(&RING, &[0, 1, F], &right, 0), refusal(9, 0, 0));
    assert_eq!(is_kept(&RING, &[6, F, F], &right, 0), refusal(9, 0, 0));
    assert_eq!(is_kept(&RING, &set, &set, 0), refusal(8, 0, 0));
    assert_eq!(is_kept(&RING, &set, &[], 0), refusal(8, 0, 0));
    assert_eq!(is_kept(&RING, &set, &[3, 1, F], 3), refusal(9, 0, 0));
    let short = |operator| kept::kept(&RING, &set, &right, operator, &mut []);
    assert_eq!(short(3), refusal(19, 0, 0));
    assert_eq!(short(0), refusal(13, 0, 0));
}

#[test]
fn checker_questions() {
    // 13 comes before 10, 10 before 11; the lowest places are named.
    let short = checker::check(&RING, &[2, F, F], &mut []);
    assert_eq!(short, refusal(13, 0, 0));
    assert_eq!(checker::check(&RING, &RING_CLAUSES, &mut [0]), Ok(()));
    assert_eq!(
        check(&RING, &[0, F, F, 2, F, F, 4, F, F]),
        refusal(10, 1, 0)
    );
    assert_eq!(check(&RING, &[1, 3, F, 1, 5, F]), refusal(11, 0, 2));
    assert_eq!(
        check(&RING, &[0, 2, 4, 1, 3, F, 3, 5, F]),
        refusal(11, 2, 0)
    );
    assert_eq!(check(&RING, &[9, F, F]), refusal(9, 0, 0));
}

#[test]
fn synthesis_questions() {
    use reference::synthesis::synthesize;
    let mut rows = [7; 12];
    let mut call = |image: &[u16], n, limit, work: usize, marks: usize| {
        let answer = synthesize(
            image,
            n,
            limit,
            &mut rows,
            &mut vec![0; work],
            &mut vec![0; marks],
        );
        assert_eq!(rows, [7; 12]);
        answer
    };
    assert_eq!(call(&RING[1..], 0, 0, 0, 0), refusal(3, 0, 0));
    assert_eq!(call(&RING, 0, 1, 0, 0), refusal(12, 0, 0));
    assert_eq!(call(&RING, 1, 0, 0, 0), refusal(12, 0, 0));
    assert_eq!(call(&RING, 4, 1, 0, 0), refusal(12, 0, 0));
    assert_eq!(call(&RING, 1, 1, 11, 1), refusal(13, 0, 0));
    assert_eq!(call(&RING, 1, 1, 12, 0), refusal(13, 0, 0));
}

/// The rows of a buffer count up to 10,000, its words after them are zeroed.
#[test]
fn long_clause_buffer() {
    let (answer, rows) = synthesis(&RING, 3, 10, 30_050);
    assert_eq!(answer.map(|found| found.rows), Ok(4));
    assert_eq!(rows[..12], RING_CLAUSES);
    assert!(rows[12..].iter().all(|&word| word == 0));
    let (answer, rows) = synthesis(&RING, 1, 2, 30_050);
    assert_eq!(answer, refusal(15, 0, 0));
    assert!(rows.iter().all(|&word| word == 0));
}

#[test]
fn target_too_short() {
    let mut target = [7; 62];
    let answer = reencoding::reencode(&RING, &RING_CLAUSES, &mut [0], &mut target);
    assert_eq!(answer, refusal(16, 0, 0));
    assert_eq!(target, [7; 62]);
    let answer = reencoding::reencode(&RING, &[0, F, F], &mut [0], &mut []);
    assert_eq!(answer, refusal(11, 0, 0));
}

#[test]
fn foreign_images_are_right() {
    let rng = &mut Rng::new(4);
    for _ in 0..2_000 {
        let spec = foreign(rng);
        let image = spec.image();
        assert!(fdr::read(&image).is_ok(), "{image:?}");
        assert_eq!(FdrSpec::read(&image), Some(spec));
    }
}

#[test]
fn question_17() {
    let right = FdrSpec {
        domains: vec![(2, 1), (1, 0), (1, 1)],
        atoms: vec![(1, 0), (0, 0)],
        initial: vec![1, 0, 0],
        goal: vec![(0, 0), (0, 1), (0, 0)],
        operators: vec![],
    };
    let number = |change: fn(&mut FdrSpec)| {
        let mut spec = right.clone();
        change(&mut spec);
        fdr::read(&spec.image()).err().map(|refusal| refusal.number)
    };
    assert_eq!(number(|_| ()), None);
    assert_eq!(number(|spec| spec.goal.push((0, 2))), Some(17));
    assert_eq!(number(|spec| spec.goal.push((0, 65535))), Some(17));
    assert_eq!(number(|spec| spec.goal.push((2, 0))), Some(17));
    assert_eq!(number(|spec| spec.goal.push((3, 0))), Some(17));
    assert_eq!(number(|spec| spec.atoms[0] = (0, 0)), Some(17));
    assert_eq!(number(|spec| spec.atoms[1] = (0, 1)), Some(17));
    assert_eq!(number(|spec| spec.atoms.truncate(1)), Some(17));
    assert_eq!(number(|spec| spec.domains[2] = (0, 0)), Some(17));
    assert_eq!(number(|spec| spec.domains[2] = (0, 1)), Some(17));
    assert_eq!(number(|spec| spec.domains[2] = (2, 2)), Some(17));
    assert_eq!(number(|spec| spec.initial[0] = 2), Some(17));
    assert_eq!(number(|spec| spec.initial.push(0)), Some(17));
    assert_eq!(
        number(|spec| (spec.domains[0].0, spec.domains[1].0) = (32770, 32769)),
        Some(17)
    );
    for length in 0..right.image().len() {
        assert!(fdr::read(&right.image()[..length]).is_err());
    }
}

#[test]
fn coding_questions() {
    let spec = FdrSpec {
        domains: vec![(3, 1), (1, 0)],
        atoms: vec![(0, 1), (1, 0), (0, 0)],
        initial: vec![2, 0],
        ..FdrSpec::default()
    };
    let image = spec.image();
    let encode = |state: &[u8]| {
        let mut target = [7; 2];
        let answer = coding::encode(&image, state, &mut target);
        assert!(answer.is_ok() || target == [7; 2]);
        answer.map(|()| target)
    };
    assert_eq!(encode(&[0, 1, 0]), Ok([2, 0]));
    assert_eq!(encode(&[1, 1, 0]), Ok([1, 0]));
    assert_eq!(encode(&[1, 1, 1]), refusal(23, 0, 0));
    assert_eq!(encode(&[0, 0, 0]), refusal(23, 0, 0));
    assert_eq!(encode(&[0, 2, 0]), refusal(18, 0, 0));
    assert_eq!(encode(&[0, 1]), refusal(18, 0, 0));
    assert_eq!(
        coding::encode(&image, &[0, 1, 0], &mut [7; 3]),
        refusal(18, 0, 0)
    );
    let decode = |state: &[u16]| {
        let mut target = [7; 3];
        let answer = coding::decode(&image, state, &mut target);
        assert!(answer.is_ok() || target == [7; 3]);
        answer.map(|()| target)
    };
    assert_eq!(decode(&[0, 0]), Ok([0, 1, 1]));
    assert_eq!(decode(&[2, 0]), Ok([0, 1, 0]));
    assert_eq!(decode(&[3, 0]), refusal(18, 0, 0));
    assert_eq!(decode(&[0, 0, 0]), refusal(18, 0, 0));
    assert_eq!(
        coding::decode(&image, &[0, 0], &mut [7; 2]),
        refusal(18, 0, 0)
    );
}

/// Demand 3 on structured tasks: task and re-encoding answer alike on random lists.
#[test]
fn both_encodings_answer_alike() {
    let rng = &mut Rng::new(5);
    let tasks = [
        structured::gripper(2, 2, 2),
        structured::blocks(3),
        structured::briefcase(2, 3),
        structured::changer(2, 3),
    ];
    for image in tasks.iter().map(|task| task.image()) {
        let (answer, rows) = synthesis(&image, 3, 100, 30_000);
        let rows = &rows[..3 * answer.expect("finished").rows];
        let coded = reencoded(&image, rows).expect("accepted");
        let (atoms, variables) = (usize::from(image[0]), usize::from(coded[0]));
        let (mut bytes, mut values) = (vec![0; atoms], vec![0; variables]);
        state::initial(&image, &mut bytes).expect("right");
        fdr::initial(&coded, &mut values).expect("right");
        for _ in 0..2_000 {
            let operator = inputs::state::operator(rng, usize::from(image[1]));
            let answer = state::step(&image, &mut bytes, operator);
            assert_eq!(fdr::step(&coded, &mut values, operator), answer);
            let mut codes = vec![0; variables];
            assert_eq!(coding::encode(&coded, &bytes, &mut codes), Ok(()));
            assert_eq!(codes, values);
            assert_eq!(state::goal(&image, &bytes), fdr::goal(&coded, &values));
        }
    }
}
