//! One clause under one operator, and the checker.

use compare::{calls, Guarded, Tally};
use inputs::clauses::{self, FILL};
use inputs::fixed::kept_cases;
use inputs::{damage, state, Rng};
use kulabismuth::Reply;
use reference::marks::mark_bytes;
use sources::{marks_length, Failing, Synthesized};

const LEAST: usize = 50;

fn damaged_now_and_then(rng: &mut Rng, image: &[u16]) -> Vec<u16> {
    let mut image = image.to_vec();
    if rng.chance(12) {
        damage::task_image(rng, &mut image);
    }
    image
}

/// Clause words of all kinds, or a very small set.
fn random_set(rng: &mut Rng, source: &Synthesized) -> Vec<u16> {
    if rng.chance(50) {
        source.clause_words(rng)
    } else {
        clauses::words(&clauses::random_set(rng, source.atoms(), 2))
    }
}

/// A clause of the set, a random one, or words that are not one right row.
fn random_clause(rng: &mut Rng, source: &Synthesized) -> Vec<u16> {
    let mut clause = match rng.place(source.rows.len()) {
        Some(place) if rng.chance(50) => source.rows[place].to_vec(),
        _ => clauses::random_row(rng, source.atoms()).to_vec(),
    };
    match rng.below(20) {
        0 => clauses::damage(rng, source.atoms(), &mut clause),
        1 => clause = clauses::words(&source.rows),
        _ => {}
    }
    clause
}

#[test]
fn kept_under_one_operator() {
    let rng = &mut Rng::new(201);
    let mut tally = Tally::new("kb_kept");
    let mut answers = [0; 2];
    while !tally.is_full() {
        let source = Synthesized::random(rng);
        let operators = usize::from(source.image[1]);
        for _ in 0..8 {
            let image = damaged_now_and_then(rng, &source.image);
            let lent = (
                Guarded::new(&image),
                Guarded::new(&random_set(rng, &source)),
                Guarded::new(&random_clause(rng, &source)),
                Guarded::new(&vec![rng.word() as u8; marks_length(rng, source.atoms())]),
            );
            let operator = state::operator(rng, operators);
            let reply = calls::kept(&mut tally, lent, operator);
            if reply.number == 0 {
                answers[reply.first as usize] += 1;
            }
        }
    }
    falsifying_rows(rng, &mut tally, &mut answers);
    println!("kb_kept: not kept and kept {answers:?}");
    assert!(answers.iter().all(|&count| count > 1_000));
    tally.finish(LEAST, &[0, 1, 2, 3, 4, 5, 6, 7, 8, 9, 13, 19]);
}

/// Operators most of whose rows make a literal of the clause false.
fn falsifying_rows(rng: &mut Rng, tally: &mut Tally, answers: &mut [usize; 2]) {
    for _ in 0..20_000 {
        let (task, clause) = clauses::falsifying_task(rng);
        let atoms = usize::from(task.atoms);
        let set = clauses::random_set(rng, atoms, 2);
        let lent = (
            Guarded::new(&task.image()),
            Guarded::new(&clauses::words(&set)),
            Guarded::new(&clause),
            Guarded::new(&vec![0; mark_bytes(atoms)]),
        );
        let reply = calls::kept(tally, lent, 0);
        answers[reply.first as usize] += 1;
    }
}

/// The misreadings of "Kept clauses", with the answers written down.
#[test]
fn kept_cases_as_written_down() {
    for case in kept_cases() {
        let mut marks = vec![0; mark_bytes(usize::from(case.image[0]))];
        let reply = kulabismuth::kept(&case.image, &case.clauses, &case.clause, 0, &mut marks);
        let expected = Reply::finding(u64::from(case.kept), 0);
        assert_eq!(reply, expected, "{}", case.name);
    }
}

#[test]
fn check() {
    let rng = &mut Rng::new(202);
    let mut tally = Tally::new("kb_check");
    while !tally.is_full() {
        let source = Synthesized::random(rng);
        for _ in 0..5 {
            let image = damaged_now_and_then(rng, &source.image);
            let marks = vec![rng.word() as u8; marks_length(rng, source.atoms())];
            calls::check(
                &mut tally,
                (
                    Guarded::new(&image),
                    Guarded::new(&source.clause_words(rng)),
                    Guarded::new(&marks),
                ),
            );
        }
    }
    tally.finish(LEAST, &[0, 1, 2, 3, 4, 5, 6, 7, 8, 9, 10, 11, 13]);
}

/// Compares kb_check on a set that fails at several places: both sides name the
/// lowest. So do the calls that ask the checker's questions first.
fn compare_failing(tally: &mut Tally, failing: &Failing) {
    let (image, words) = (&failing.image, &failing.words);
    let mut marks = vec![0; mark_bytes(usize::from(image[0]))];
    let lent = (
        Guarded::new(image),
        Guarded::new(words),
        Guarded::new(&marks),
    );
    let lowest = Reply::from(Err::<(), _>(failing.lowest()));
    assert_eq!(calls::check(tally, lent), lowest, "{failing:?}");
    let mut target = vec![FILL; 40];
    let others = [
        kulabismuth::groups(image, words, &mut marks, &mut target),
        kulabismuth::reencode(image, words, &mut marks, &mut target),
        kulabismuth::agree(image, words, &[0, 1], &mut marks),
    ];
    assert_eq!(others, [lowest; 3], "{failing:?}");
    assert_eq!(target, [FILL; 40], "{failing:?}");
}

/// Says by kb_kept alone whether these are the lowest places: each clause before
/// is kept under every operator, this one under every operator before and not
/// under this one.
fn are_lowest(failing: &Failing, clause: usize, operator: usize) -> bool {
    let (image, words) = (&failing.image, &failing.words);
    let mut marks = vec![0; mark_bytes(usize::from(image[0]))];
    let mut kept = |place: usize, operator: u16| {
        let row = &words[3 * place..3 * place + 3];
        kulabismuth::kept(image, words, row, operator, &mut marks) == Reply::finding(1, 0)
    };
    let all_before = (0..clause).all(|place| (0..image[1]).all(|other| kept(place, other)));
    let operator = operator as u16;
    all_before && (0..operator).all(|other| kept(clause, other)) && !kept(clause, operator)
}

/// Document 02 §2: two or more clauses are false initially.
#[test]
fn the_lowest_false_clause() {
    let rng = &mut Rng::new(203);
    let mut tally = Tally::new("kb_check, several false clauses");
    while !tally.is_full() {
        compare_failing(&mut tally, &Failing::several_false(rng));
    }
    tally.finish(LEAST, &[10]);
}

/// Document 02 §2: two or more clauses are not kept, the lowest of them under
/// two or more operators.
#[test]
fn the_lowest_clause_and_operator() {
    let rng = &mut Rng::new(204);
    let mut tally = Tally::new("kb_check, several clauses and operators");
    let mut clauses_differ = 0;
    while !tally.is_full() {
        let failing = Failing::several_not_kept(rng);
        compare_failing(&mut tally, &failing);
        let lowest = failing.lowest();
        let (clause, operator) = (lowest.first as usize, lowest.second as usize);
        assert!(are_lowest(&failing, clause, operator), "{failing:?}");
        clauses_differ += usize::from(failing.operator_first().0 != clause);
    }
    println!("kb_check: {clauses_differ} times the lowest operator names a higher clause");
    assert!(clauses_differ > 2_000);
    tally.finish(LEAST, &[11]);
}

/// Document 01's ring and its answers.
#[test]
fn check_the_ring() {
    let image = inputs::structured::ring(3).image();
    let check = |rows: &[u16]| {
        let reply = kulabismuth::check(&image, rows, &mut [0]);
        (reply.number, reply.first, reply.second)
    };
    assert_eq!(check(&[2, FILL, FILL]), (10, 0, 0));
    assert_eq!(check(&[0, FILL, FILL]), (11, 0, 0));
    assert_eq!(check(&[1, 3, FILL]), (11, 0, 2));
    // Document 02 §2: the lower of two false clauses; the lowest clause before
    // the lowest operator.
    assert_eq!(
        check(&[0, FILL, FILL, 2, FILL, FILL, 4, FILL, FILL]),
        (10, 1, 0)
    );
    assert_eq!(check(&[0, 2, FILL, 0, 4, FILL]), (11, 0, 1));
    let found = Synthesized::new(image.clone(), 3);
    assert_eq!(check(&clauses::words(&found.rows)), (0, 0, 0));
}
