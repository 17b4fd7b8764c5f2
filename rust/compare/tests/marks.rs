//! Marks in bits (document 02 §7): every other call that is lent marks, with just enough
//! bytes, with more and with a byte too few. What the marks hold before, and bits and
//! bytes after the literals', make no difference.

use compare::calls::{self, Library, Model};
use compare::{Guarded, Tally};
use inputs::{clauses, random, state, Rng};
use kulabismuth::Reply;
use reference::marks::mark_bytes;
use reference::synthesis::{self, MOST_ROWS};
use reference::{groups, reencoding, task};
use sources::Synthesized;

/// Each kind of answer must occur so often.
const LEAST: usize = 50;

/// Each call is compared on so many inputs, synthesis on fewer.
const INPUTS: usize = 6_000;
const SYNTHESES: usize = 2_000;

/// Marks that are enough: of the exact length with zeros, ones and any content, and longer.
fn enough(rng: &mut Rng, atoms: usize) -> Vec<Vec<u8>> {
    let needed = mark_bytes(atoms);
    let longer = needed + rng.between(1, 9);
    vec![
        vec![0; needed],
        vec![255; needed],
        rng.bytes(needed),
        rng.bytes(longer),
    ]
}

/// Marks that are not enough: a byte too few, and any number below.
fn too_few(rng: &mut Rng, atoms: usize) -> Vec<Vec<u8>> {
    let needed = mark_bytes(atoms);
    let fewer = rng.below(needed);
    vec![rng.bytes(needed - 1), rng.bytes(fewer)]
}

/// Makes the call with all these marks. With enough of them all answers, and all else
/// that the call writes, are the same; with too few the answer is 13, or that of a question
/// before.
fn with_marks<T: PartialEq + std::fmt::Debug>(
    rng: &mut Rng,
    image: &[u16],
    mut call: impl FnMut(&[u8]) -> (Reply, T),
) -> Reply {
    let atoms = usize::from(image[0]);
    let results: Vec<(Reply, T)> = enough(rng, atoms).iter().map(|marks| call(marks)).collect();
    let same = results.iter().all(|result| *result == results[0]);
    assert!(same, "{image:?} {results:?}");
    let given = results[0].0;
    for marks in too_few(rng, atoms) {
        let (reply, _) = call(&marks);
        let before = [8, 9, 12, 19].contains(&given.number);
        let expected = if before { given.number } else { 13 };
        assert_eq!(reply.number, expected, "{image:?}");
    }
    given
}

/// The set that was found or any.
fn random_set(rng: &mut Rng, source: &Synthesized) -> Vec<u16> {
    if rng.chance(50) {
        clauses::words(&source.rows)
    } else {
        source.clause_words(rng)
    }
}

#[test]
fn kept() {
    let rng = &mut Rng::new(1101);
    let mut tally = Tally::new("kb_kept, marks");
    while tally.total() < INPUTS {
        let source = Synthesized::random(rng);
        let image = &source.image;
        let set = random_set(rng, &source);
        let clause = match rng.place(source.rows.len()) {
            Some(place) if rng.chance(50) => source.rows[place],
            _ => clauses::random_row(rng, source.atoms()),
        };
        let operator = state::operator(rng, usize::from(image[1]));
        with_marks(rng, image, |marks| {
            let lent = (
                Guarded::new(image),
                Guarded::new(&set),
                Guarded::new(&clause),
                Guarded::new(marks),
            );
            (calls::kept(&mut tally, lent, operator), ())
        });
    }
    tally.finish_after(INPUTS, LEAST, &[0, 8, 9, 13, 19]);
}

#[test]
fn check() {
    let rng = &mut Rng::new(1102);
    let mut tally = Tally::new("kb_check, marks");
    while tally.total() < INPUTS {
        let source = Synthesized::random(rng);
        let image = &source.image;
        let set = random_set(rng, &source);
        with_marks(rng, image, |marks| {
            let lent = (Guarded::new(image), Guarded::new(&set), Guarded::new(marks));
            (calls::check(&mut tally, lent), ())
        });
    }
    tally.finish_after(INPUTS, LEAST, &[0, 8, 9, 10, 11, 13]);
}

#[test]
fn agree() {
    let rng = &mut Rng::new(1103);
    let mut tally = Tally::new("kb_agree, marks");
    while tally.total() < INPUTS {
        let source = Synthesized::random(rng);
        let image = &source.image;
        let set = random_set(rng, &source);
        let list = state::list(rng, usize::from(image[1]));
        with_marks(rng, image, |marks| {
            let lent = (
                Guarded::new(image),
                Guarded::new(&set),
                Guarded::new(&list),
                Guarded::new(marks),
            );
            (calls::agree(&mut tally, lent), ())
        });
    }
    tally.finish_after(INPUTS, LEAST, &[0, 8, 9, 10, 11, 13]);
}

/// Groups or re-encoding, into a target that is long enough or too short.
fn targeted(name: &'static str, seed: u64, model: Model, library: Library) {
    let rng = &mut Rng::new(seed);
    let mut tally = Tally::new(name);
    while tally.total() < INPUTS {
        let source = Synthesized::random(rng);
        let image = &source.image;
        let set = random_set(rng, &source);
        let length = if rng.chance(80) { 32_768 } else { rng.below(5) };
        let target = Guarded::new(&vec![rng.word(); length]);
        with_marks(rng, image, |marks| {
            let lent = (
                Guarded::new(image),
                Guarded::new(&set),
                Guarded::new(marks),
                target.clone(),
            );
            calls::targeted(&mut tally, lent, model, library)
        });
    }
    tally.finish_after(INPUTS, LEAST, &[0, 8, 9, 10, 11, 13, 16]);
}

#[test]
fn groups_of_sets() {
    targeted(
        "kb_groups, marks",
        1104,
        groups::groups,
        kulabismuth::groups,
    );
}

#[test]
fn reencode() {
    let (model, library) = (reencoding::reencode, kulabismuth::reencode);
    targeted("kb_reencode, marks", 1105, model, library);
}

/// Refusals 14 and 15 besides; clause and work buffers of the length that is needed, or
/// some words less.
#[test]
fn synthesize() {
    let rng = &mut Rng::new(1106);
    let mut tally = Tally::new("kb_synthesize, marks");
    while tally.total() < SYNTHESES {
        let image = random::small(rng).image();
        let task = task::read(&image).expect("a right image");
        let n = rng.between(1, 3);
        let found = synthesis::run(&task, n, 65535, MOST_ROWS).expect("room enough");
        let rows = found.largest - usize::from(rng.chance(20));
        let limit = found.rounds - usize::from(rng.chance(20));
        let n = if rng.chance(5) { 4 } else { n as u16 };
        with_marks(rng, &image, |marks| {
            let lent = (
                Guarded::new(&image),
                Guarded::new(&vec![1; 3 * rows]),
                Guarded::new(&vec![2; 3 * rows]),
                Guarded::new(marks),
            );
            calls::synthesize(&mut tally, lent, n, limit as u16)
        });
    }
    tally.finish_after(SYNTHESES, LEAST, &[0, 12, 13, 14, 15]);
}
