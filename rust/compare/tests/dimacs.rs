//! Clauses to and from DIMACS CNF.

use compare::{Guarded, Tally};
use inputs::clauses::{self, Row};
use inputs::dimacs::{self, distinct_rows, Source, Text};
use inputs::{structured, Rng};
use kulabismuth::Reply;
use reference::dimacs as model;
use sources::target_length;

const LEAST: usize = 100;

/// Image, clauses and text.
type Writing = (Guarded<u16>, Guarded<u16>, Guarded<u8>);
/// Image, text and clauses.
type Reading = (Guarded<u16>, Guarded<u8>, Guarded<u16>);

fn compare_write(tally: &mut Tally, lent: Writing) -> (Reply, Writing) {
    tally.compare(
        (),
        lent,
        |(image, clauses, text)| model::write(image.lend(), clauses.lend(), text.lend_mut()).into(),
        |(image, clauses, text)| {
            kulabismuth::write_dimacs(image.lend(), clauses.lend(), text.lend_mut())
        },
    )
}

fn compare_read(tally: &mut Tally, lent: Reading) -> (Reply, Reading) {
    tally.compare(
        (),
        lent,
        |(image, text, clauses)| model::read(image.lend(), text.lend(), clauses.lend_mut()).into(),
        |(image, text, clauses)| {
            kulabismuth::read_dimacs(image.lend(), text.lend(), clauses.lend_mut())
        },
    )
}

/// A target of random content.
fn bytes(rng: &mut Rng, length: usize) -> Guarded<u8> {
    Guarded::new(&vec![rng.word() as u8; length])
}

fn words(rng: &mut Rng, length: usize) -> Guarded<u16> {
    Guarded::new(&vec![rng.word(); length])
}

/// An image, its rows, now and then damaged, and a target for their text.
fn writing(rng: &mut Rng, source: &Source) -> Writing {
    let mut rows = clauses::words(&source.rows);
    if rng.chance(20) {
        clauses::damage(rng, source.atoms, &mut rows);
    }
    let needed = dimacs::written(source.atoms, &source.rows).len();
    let length = target_length(rng, needed);
    (
        Guarded::new(&source.image),
        Guarded::new(&rows),
        bytes(rng, length),
    )
}

#[test]
fn write() {
    let rng = &mut Rng::new(801);
    let mut tally = Tally::new("kb_write_dimacs");
    while !tally.is_full() {
        let source = dimacs::source(rng);
        let lent = writing(rng, &source);
        compare_write(&mut tally, lent);
    }
    let image = structured::ring(200).image();
    for count in [1_000, 9_999, 10_000, 10_001] {
        let rows = distinct_rows(rng, 200, count);
        let needed = dimacs::written(200, &rows).len();
        for length in [needed, needed - 1, needed + 9, 0] {
            let lent = (
                Guarded::new(&image),
                Guarded::new(&rows.concat()),
                bytes(rng, length),
            );
            compare_write(&mut tally, lent);
        }
    }
    tally.finish(LEAST, &[0, 1, 2, 3, 4, 5, 6, 7, 8, 9, 26]);
}

/// An image, a text of its rows of any kind, and a target for these.
fn reading(rng: &mut Rng, source: &Source) -> Reading {
    let text = dimacs::any(rng, source.atoms, &source.rows);
    let length = target_length(rng, 3 * source.rows.len());
    (
        Guarded::new(&source.image),
        Guarded::new(&text),
        words(rng, length),
    )
}

#[test]
fn read() {
    let rng = &mut Rng::new(802);
    let mut tally = Tally::new("kb_read_dimacs");
    while tally.total() < 2 * compare::tally::INPUTS {
        let source = dimacs::source(rng);
        let lent = reading(rng, &source);
        compare_read(&mut tally, lent);
    }
    tally.finish(LEAST, &[0, 1, 2, 3, 4, 5, 6, 7, 24, 25, 26]);
}

/// Texts with the answer to reading them written down, for the ring of three.
#[test]
fn texts_as_written_down() {
    let image = structured::ring(3).image();
    let number = |text: &str| {
        let mut rows = [7; 9];
        let reply = kulabismuth::read_dimacs(&image, text.as_bytes(), &mut rows);
        assert!(reply.number == 0 || rows == [7; 9], "{text:?}");
        (reply.number, reply.first, reply.second)
    };
    assert_eq!(number("p cnf 3 0"), (0, 0, 0));
    assert_eq!(number("p cnf\n3\n1 1\n0"), (0, 1, 0));
    assert_eq!(number("c\np cnf 3 3 3 0 1 2 0 2 1 0\n"), (0, 2, 0));
    assert_eq!(number(""), (24, 0, 0));
    assert_eq!(number("\np cnf 3 0"), (24, 0, 0));
    assert_eq!(number("p cnf3 0"), (24, 0, 0));
    assert_eq!(number("p cnf 3 1 4 0"), (24, 0, 0));
    assert_eq!(number("p cnf 3 1 4294967297 0"), (24, 0, 0));
    assert_eq!(number("p cnf 3 4294967297 1 0"), (24, 0, 0));
    assert_eq!(number("p cnf 3 1 -0"), (24, 0, 0));
    assert_eq!(number("p cnf 3 1 1 0 2"), (24, 0, 0));
    assert_eq!(number("p cnf 3 2 1 1 0 01 0"), (24, 0, 0));
    assert_eq!(number("p cnf 3 1 0"), (25, 0, 0));
    assert_eq!(number("p cnf 3 1 1 -1 0"), (25, 0, 0));
    assert_eq!(number("p cnf 3 1 1 2 3 1 0"), (25, 0, 0));
    assert_eq!(number("p cnf 3 4 1 0 2 0 3 0 -1 0"), (26, 0, 0));
}

/// Sizes about the limit: rows in order and shuffled, with more clauses that
/// equal some of them, and targets about the length needed.
#[test]
fn large_texts() {
    let rng = &mut Rng::new(803);
    let mut tally = Tally::new("kb_read_dimacs");
    for (count, repeated) in [
        (0, 0),
        (1, 20_000),
        (5_000, 7_000),
        (9_999, 2_001),
        (10_000, 0),
        (10_000, 2_000),
        (10_000, 60_000),
        (10_001, 0),
        (10_001, 2_000),
    ] {
        let rows = distinct_rows(rng, 200, count);
        let text = large_text(rng, &rows, repeated);
        let plain = dimacs::written(200, &rows);
        let needed = 3 * count;
        for length in [needed, needed.saturating_sub(1), needed + 4, 30_000, 0] {
            for text in [&plain, &text] {
                let reply = read_large(rng, &mut tally, text, length);
                let fits = count <= 10_000 && length >= needed;
                let expected = if fits { 0 } else { 26 };
                assert_eq!(reply.number, expected, "{count} rows, {length} words");
            }
        }
    }
}

/// The rows in any order, so many of them once more.
fn large_text(rng: &mut Rng, rows: &[Row], repeated: usize) -> Vec<u8> {
    let mut clauses: Vec<Vec<u16>> = rows.iter().map(clauses::literals).collect();
    for _ in 0..repeated {
        let again = rng.below(rows.len());
        clauses.push(clauses[again].clone());
    }
    rng.shuffle(&mut clauses);
    for clause in &mut clauses {
        rng.shuffle(clause);
    }
    Text::new(200, &clauses).odd(rng)
}

fn read_large(rng: &mut Rng, tally: &mut Tally, text: &[u8], length: usize) -> Reply {
    let image = structured::ring(200).image();
    let lent = (Guarded::new(&image), Guarded::new(text), words(rng, length));
    compare_read(tally, lent).0
}

/// What the library writes, it reads back into the same words.
fn round_trip(rng: &mut Rng, image: &[u16], rows: &[u16]) {
    let mut text = vec![1; 200_000];
    let written = kulabismuth::write_dimacs(image, rows, &mut text);
    assert_eq!(written.number, 0, "{image:?} {rows:?}");
    let text = &text[..written.first as usize];
    let mut again = vec![1; rows.len() + rng.below(5)];
    let read = kulabismuth::read_dimacs(image, text, &mut again);
    let count = rows.len() as u64 / 3;
    assert_eq!(read, Reply::finding(count, 0), "{image:?} {rows:?}");
    assert_eq!(&again[..rows.len()], rows, "{image:?}");
    assert!(again[rows.len()..].iter().all(|&word| word == 1));
}

#[test]
fn written_and_read_again() {
    let rng = &mut Rng::new(804);
    for _ in 0..5_000 {
        let task = inputs::random::any(rng);
        let rows = clauses::random_set(rng, usize::from(task.atoms), 20);
        round_trip(rng, &task.image(), &clauses::words(&rows));
    }
    for (atoms, count) in [(50, 10_000), (200, 10_000), (1_024, 10_000), (1_024, 0)] {
        let rows = distinct_rows(rng, usize::from(atoms), count);
        let task = inputs::task::TaskSpec {
            atoms,
            ..inputs::task::TaskSpec::default()
        };
        round_trip(rng, &task.image(), &rows.concat());
    }
}
