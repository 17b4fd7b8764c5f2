//! The generators of `inputs` do what they say: valid images are accepted, each
//! kind of damage is refused often, and every number of reading occurs.

use inputs::damage::{self, COMMON, LISTS};
use inputs::dimacs::damage::{BYTES, CLAUSES, TEXT};
use inputs::dimacs::{self, Source, Text};
use inputs::fdr::{self, SPEC};
use inputs::{clauses, random, structured, Rng};
use reference::{fdr as model, task, Reply};

#[test]
fn valid_tasks_are_accepted() {
    let rng = &mut Rng::new(6);
    for _ in 0..3_000 {
        let image = random::any(rng).image();
        assert!(task::read(&image).is_ok(), "{image:?}");
    }
    for _ in 0..20 {
        let image = random::largest(rng).image();
        assert_eq!(image.len(), 8192);
        assert!(task::read(&image).is_ok());
    }
}

#[test]
fn each_damage_to_a_task_is_refused() {
    let rng = &mut Rng::new(7);
    for (number, damage) in COMMON.iter().chain(LISTS).enumerate() {
        let mut refused = 0;
        for _ in 0..200 {
            let mut image = structured::gripper(2, 2, 2).image();
            damage(rng, &mut image);
            refused += usize::from(task::read(&image).is_err());
        }
        assert!(refused >= 60, "damage {number}: {refused} of 200");
    }
}

#[test]
fn each_damage_to_a_reencoded_image_is_refused() {
    let rng = &mut Rng::new(8);
    for (number, damage) in SPEC.iter().enumerate() {
        let mut refused = 0;
        for _ in 0..200 {
            let mut spec = fdr::foreign(rng);
            damage(rng, &mut spec);
            refused += usize::from(model::read(&spec.image()).is_err());
        }
        assert!(refused >= 60, "damage {number}: {refused} of 200");
    }
}

#[test]
fn estranged_images_are_right() {
    let rng = &mut Rng::new(9);
    for _ in 0..2_000 {
        let mut spec = fdr::foreign(rng);
        fdr::estrange(rng, &mut spec);
        assert!(model::read(&spec.image()).is_ok(), "{spec:?}");
    }
}

/// Directories that would be right if sums were kept in 16 bits.
#[test]
fn wrapping_lengths_wrap() {
    let rng = &mut Rng::new(10);
    for _ in 0..500 {
        let mut image = random::structured(rng).image();
        damage::wrapping_lengths(rng, &mut image);
        let start = usize::from(image[2]);
        let mut end = image[2];
        for pair in image[2..start].chunks(2) {
            assert_eq!(pair[0], end, "{image:?}");
            end = end.wrapping_add(pair[1]);
        }
        assert_eq!(usize::from(end), image.len());
        let refusal = task::read(&image).expect_err("the sums do not wrap");
        assert_eq!(refusal.number, 3);
    }
}

/// Reads a text for a task of so many atoms into the most rows.
fn read_text(atoms: usize, text: &[u8]) -> (u32, Vec<u16>) {
    let image = inputs::task::lay_out(atoms as u16, 0, &[vec![], vec![]]);
    let mut rows = vec![0; 30_000];
    let reply: Reply = reference::dimacs::read(&image, text, &mut rows).into();
    let count = if reply.number == 0 { reply.first } else { 0 };
    rows.truncate(3 * count as usize);
    (reply.number, rows)
}

#[test]
fn right_texts_are_read() {
    let rng = &mut Rng::new(12);
    for _ in 0..5_000 {
        let Source { atoms, rows, .. } = dimacs::source(rng);
        let expected = (0, clauses::words(&rows));
        let text = dimacs::right(rng, atoms, &rows);
        assert_eq!(read_text(atoms, &text), expected, "{text:?}");
        let text = dimacs::written(atoms, &rows);
        assert_eq!(read_text(atoms, &text), expected, "{text:?}");
    }
}

/// Does each damage 300 times: every text is refused with the number.
fn each_is_refused<D>(
    number: u32,
    seed: u64,
    damages: &[D],
    text: impl Fn(&D, &mut Rng, &Source) -> Vec<u8>,
) {
    let rng = &mut Rng::new(seed);
    for (place, damage) in damages.iter().enumerate() {
        for _ in 0..300 {
            let source = dimacs::source(rng);
            let text = text(damage, rng, &source);
            let answer = read_text(source.atoms, &text).0;
            assert_eq!(answer, number, "damage {place}: {text:?}");
        }
    }
}

#[test]
fn each_damage_to_clauses_is_refused() {
    each_is_refused(25, 13, CLAUSES, |damage, rng, source| {
        let mut proposal = dimacs::proposal(rng, &source.rows);
        damage(rng, source.atoms, &mut proposal);
        Text::new(source.atoms, &proposal).odd(rng)
    });
}

#[test]
fn each_damage_to_a_text_is_refused() {
    each_is_refused(24, 14, TEXT, |damage, rng, source| {
        let mut text = Text::new(source.atoms, &dimacs::proposal(rng, &source.rows));
        damage(rng, &mut text);
        text.odd(rng)
    });
}

#[test]
fn each_damage_to_bytes_is_refused_at_times() {
    let rng = &mut Rng::new(15);
    for (number, damage) in BYTES.iter().enumerate() {
        let mut refused = 0;
        for _ in 0..300 {
            let Source { atoms, rows, .. } = dimacs::source(rng);
            let mut text = Text::new(atoms, &dimacs::proposal(rng, &rows)).odd(rng);
            damage(rng, &mut text);
            refused += usize::from(read_text(atoms, &text).0 > 0);
        }
        assert!(refused >= 60, "damage {number}: {refused} of 300");
    }
}

#[test]
fn texts_of_any_kind_get_each_answer() {
    let rng = &mut Rng::new(16);
    let mut counts = [0; 26];
    for _ in 0..5_000 {
        let Source { atoms, rows, .. } = dimacs::source(rng);
        let text = dimacs::any(rng, atoms, &rows);
        counts[read_text(atoms, &text).0 as usize] += 1;
    }
    assert!([0, 24, 25].iter().all(|&number| counts[number] > 500));
}
