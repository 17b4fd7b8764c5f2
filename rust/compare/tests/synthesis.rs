//! Synthesis.

use compare::{calls, Guarded, Tally};
use inputs::{clauses, damage, random, structured, Rng};
use kulabismuth::Reply;
use reference::marks::{mark_bytes, MOST_MARK_BYTES};
use reference::synthesis::{self as model, MOST_ROWS};

const LEAST: usize = 50;

/// A round limit around the number of rounds made.
fn random_limit(rng: &mut Rng, rounds: usize) -> u16 {
    match rng.below(12) {
        0 => 0,
        1 => 65535,
        2 => rng.between(1, 65535) as u16,
        3 | 4 => (rounds - 1) as u16,
        5..=7 => rounds as u16,
        _ => (rounds + 1) as u16,
    }
}

/// A length of the clause buffer around the largest set, with odd words after it.
fn random_words(rng: &mut Rng, atoms: usize, largest: usize) -> usize {
    let rows = match rng.below(12) {
        0 => rng.below(atoms + 1),
        1 => atoms - 1,
        2 | 3 => largest - 1,
        4..=6 => largest,
        7 if rng.chance(5) => MOST_ROWS + rng.below(3),
        _ => largest + rng.between(0, 3),
    };
    3 * rows + rng.below(3)
}

/// A length of the work buffer and of the marks; seldom one too short.
fn random_lengths(rng: &mut Rng, words: usize, atoms: usize) -> (usize, usize) {
    let marks = mark_bytes(atoms);
    match rng.below(24) {
        0 => (words.saturating_sub(1), marks),
        1 => (words, marks - 1),
        2..=6 => (words + rng.below(4), marks + rng.below(4)),
        _ => (words, marks),
    }
}

#[test]
fn synthesize() {
    let rng = &mut Rng::new(301);
    let mut tally = Tally::new("kb_synthesize");
    let mut rounds_seen = [0; 4];
    while !tally.is_full() {
        let image = random::small(rng).image();
        let task = reference::task::read(&image).expect("a right image");
        let (atoms, n) = (task.atoms(), rng.between(1, 3));
        let found = model::run(&task, n, 65535, MOST_ROWS).expect("room enough");
        for _ in 0..4 {
            let mut image = image.clone();
            if rng.chance(10) {
                damage::task_image(rng, &mut image);
            }
            let n = if rng.chance(2) {
                *rng.pick(&[0, 4, 65535])
            } else {
                n as u16
            };
            let limit = random_limit(rng, found.rounds);
            let words = random_words(rng, atoms, found.largest);
            let (work, marks) = random_lengths(rng, words, atoms);
            let lent = (
                Guarded::new(&image),
                Guarded::new(&vec![rng.word(); words]),
                Guarded::new(&vec![rng.word(); work]),
                Guarded::new(&vec![rng.word() as u8; marks]),
            );
            let (reply, _) = calls::synthesize(&mut tally, lent, n, limit);
            if reply.number == 0 {
                rounds_seen[(reply.second as usize - 1).min(3)] += 1;
            }
        }
    }
    println!("kb_synthesize: findings with 1, 2, 3, more rounds {rounds_seen:?}");
    assert!(rounds_seen.iter().all(|&count| count > 200));
    tally.finish(LEAST, &[0, 1, 2, 3, 4, 5, 6, 7, 12, 13, 14, 15]);
}

/// The library's set for a structured task, and its reply.
fn library_set(image: &[u16], n: u16) -> (Reply, Vec<clauses::Row>) {
    let mut rows = vec![1; 3 * MOST_ROWS];
    let mut work = rows.clone();
    let marks = &mut [1; MOST_MARK_BYTES];
    let reply = kulabismuth::synthesize(image, n, 65535, &mut rows, &mut work, marks);
    assert_eq!(reply.number, 0);
    rows.truncate(3 * reply.first as usize);
    (reply, clauses::rows(&rows))
}

/// 4 balls, 3 rooms, 2 grippers: 63 mutexes; with n = 3 also that the robot is
/// in one of the three rooms.
#[test]
fn gripper() {
    let image = structured::gripper(4, 3, 2).image();
    let (reply, mutexes) = library_set(&image, 2);
    assert_eq!(reply, Reply::finding(63, 6));
    let is_mutex = |row: &clauses::Row| {
        let literals = clauses::literals(row);
        literals.len() == 2 && literals.iter().all(|literal| literal % 2 == 1)
    };
    assert!(mutexes.iter().all(is_mutex));
    let (reply, more) = library_set(&image, 3);
    assert_eq!(reply, Reply::finding(64, 9));
    assert_eq!(more[0], [0, 2, 4]);
    assert_eq!(more[1..], mutexes);
}

/// Larger structured tasks, whole.
#[test]
fn structured_tasks() {
    let tasks = structured::one_of_each();
    for task in tasks {
        let image = task.image();
        let task = reference::task::read(&image).expect("a right image");
        for n in 1..=3 {
            let found = model::run(&task, n, 65535, MOST_ROWS).expect("room enough");
            let (reply, rows) = library_set(&image, n as u16);
            let expected = Reply::finding(found.clauses.len() as u64, found.rounds as u64);
            assert_eq!(reply, expected, "{image:?} {n}");
            let words = found.clauses.iter().map(|clause| clause.words());
            assert!(rows.into_iter().eq(words), "{image:?} {n}");
        }
    }
}

/// The rows of a buffer count up to 10,000 and no further: a ring of 141 places
/// with atoms that are never true has 9,870 mutexes and a row for each of these.
#[test]
fn ten_thousand_rows() {
    let mut task = structured::ring(141);
    let replies = [271, 272].map(|atoms| {
        task.atoms = atoms;
        let image = task.image();
        let (mut rows, mut work) = (vec![1; 30_012], vec![1; 30_012]);
        let marks = &mut [1; MOST_MARK_BYTES];
        let reply = kulabismuth::synthesize(&image, 2, 65535, &mut rows, &mut work, marks);
        let zeros = rows.iter().rev().take_while(|&&word| word == 0).count();
        (reply.number, reply.first, reply.second, zeros)
    });
    assert_eq!(replies, [(0, 10_000, 141, 12), (14, 0, 0, 30_012)]);
}

/// Large tasks, which soon have more rows than a buffer.
#[test]
fn large_tasks() {
    let rng = &mut Rng::new(302);
    let mut tally = Tally::new("kb_synthesize, large");
    for number in 0..12 {
        let task = match number % 3 {
            0 => random::edge(rng),
            1 => random::largest(rng),
            _ => random::task(rng, &random::MEDIUM),
        };
        let lent = (
            Guarded::new(&task.image()),
            Guarded::new(&vec![1; 3 * MOST_ROWS]),
            Guarded::new(&vec![1; 3 * MOST_ROWS]),
            Guarded::new(&[1; MOST_MARK_BYTES]),
        );
        calls::synthesize(&mut tally, lent, 1 + number % 2, 65535);
    }
}

/// Document 01's ring and its answers.
#[test]
fn ring() {
    let image = structured::ring(3).image();
    let synthesize = |n, limit, words: usize| {
        let (mut rows, mut work) = (vec![1; words], vec![1; words]);
        let reply = kulabismuth::synthesize(&image, n, limit, &mut rows, &mut work, &mut [1]);
        assert!(reply.number == 0 || rows.iter().all(|&word| word == 0));
        (reply.number, reply.first, reply.second)
    };
    assert_eq!(synthesize(1, 10, 30), (0, 0, 3));
    assert_eq!(synthesize(2, 10, 30), (0, 3, 3));
    assert_eq!(synthesize(3, 10, 30), (0, 4, 3));
    assert_eq!(synthesize(2, 2, 30), (15, 0, 0));
    assert_eq!(synthesize(2, 10, 6), (14, 0, 0));
    assert_eq!(synthesize(3, 2, 9), (15, 0, 0));
}
