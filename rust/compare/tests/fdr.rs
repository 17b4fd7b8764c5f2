//! Groups, re-encoding and the finite-domain calls.

use compare::calls::{self, Library, Model};
use compare::{Guarded, Tally};
use inputs::{clauses, damage, state, Rng};
use reference::marks::mark_bytes;
use reference::{fdr as model, groups, reencoding};
use sources::{fdr, marks_length, target_length, Synthesized};

const LEAST: usize = 50;

/// The words a target needs: as many as the call writes into a long one.
fn needed(source: &Synthesized, set: &[u16], model: Model) -> usize {
    let mut target = vec![65535; 32_768];
    let mut marks = vec![0; mark_bytes(source.atoms())];
    let answer = model(&source.image, set, &mut marks, &mut target);
    // No image or group holds the word 65535.
    answer.map_or(40, |_| {
        target.iter().take_while(|&&word| word != 65535).count()
    })
}

fn compare_many(name: &'static str, seed: u64, model: Model, library: Library) {
    let rng = &mut Rng::new(seed);
    let mut tally = Tally::new(name);
    while !tally.is_full() {
        let source = Synthesized::random(rng);
        for _ in 0..5 {
            let mut image = source.image.clone();
            if rng.chance(12) {
                damage::task_image(rng, &mut image);
            }
            let set = if rng.chance(40) {
                clauses::words(&source.rows)
            } else {
                source.clause_words(rng)
            };
            let length = needed(&source, &set, model);
            let lent = (
                Guarded::new(&image),
                Guarded::new(&set),
                Guarded::new(&vec![rng.word() as u8; marks_length(rng, source.atoms())]),
                Guarded::new(&vec![rng.word(); target_length(rng, length)]),
            );
            calls::targeted(&mut tally, lent, model, library);
        }
    }
    tally.finish(LEAST, &[0, 1, 2, 3, 4, 5, 6, 7, 8, 9, 10, 11, 13, 16]);
}

#[test]
fn groups_of_sets() {
    compare_many("kb_groups", 401, groups::groups, kulabismuth::groups);
}

#[test]
fn reencode() {
    compare_many(
        "kb_reencode",
        402,
        reencoding::reencode,
        kulabismuth::reencode,
    );
}

#[test]
fn initial() {
    let rng = &mut Rng::new(403);
    let mut tally = Tally::new("kb_fdr_initial");
    while !tally.is_full() {
        let source = fdr(rng);
        let mut state = source.state(rng);
        if rng.chance(50) {
            // What the state holds before does not matter.
            state.fill(rng.word());
        }
        tally.compare(
            (),
            (Guarded::new(&source.image), Guarded::new(&state)),
            |(image, state)| model::initial(image.lend(), state.lend_mut()).into(),
            |(image, state)| kulabismuth::fdr_initial(image.lend(), state.lend_mut()),
        );
    }
    tally.finish(LEAST, &[0, 17, 18]);
}

#[test]
fn step() {
    let rng = &mut Rng::new(404);
    let mut tally = Tally::new("kb_fdr_step");
    while !tally.is_full() {
        let source = fdr(rng);
        let image = Guarded::new(&source.image);
        let mut state = Guarded::new(&source.state(rng));
        for _ in 0..rng.between(1, 4) {
            let operator = source.operator(rng, state.lend());
            let (_, (_, next)) = tally.compare(
                operator,
                (image.clone(), state),
                |(image, state)| model::step(image.lend(), state.lend_mut(), operator).into(),
                |(image, state)| kulabismuth::fdr_step(image.lend(), state.lend_mut(), operator),
            );
            state = next;
        }
    }
    tally.finish(LEAST, &[0, 17, 18, 19, 20, 21, 22]);
}

#[test]
fn goal() {
    let rng = &mut Rng::new(405);
    let mut tally = Tally::new("kb_fdr_goal");
    let mut met = [0; 2];
    while !tally.is_full() {
        let source = fdr(rng);
        let state = source.state(rng);
        let (reply, _) = tally.compare(
            (),
            (Guarded::new(&source.image), Guarded::new(&state)),
            |(image, state)| model::goal(image.lend(), state.lend()).into(),
            |(image, state)| kulabismuth::fdr_goal(image.lend(), state.lend()),
        );
        if reply.number == 0 {
            met[reply.first as usize] += 1;
        }
    }
    println!("kb_fdr_goal: not met and met {met:?}");
    assert!(met.iter().all(|&count| count > 1_000));
    tally.finish(LEAST, &[0, 17, 18]);
}

#[test]
fn run() {
    let rng = &mut Rng::new(406);
    let mut tally = Tally::new("kb_fdr_run");
    while !tally.is_full() {
        let source = fdr(rng);
        let state = source.state(rng);
        let mut walked = state.clone();
        let mut list = state::list(rng, source.spec.operators.len());
        if rng.chance(70) {
            for operator in &mut list {
                *operator = source.operator(rng, &walked);
                let _ = model::step(&source.image, &mut walked, *operator);
            }
        }
        tally.compare(
            (),
            (
                Guarded::new(&source.image),
                Guarded::new(&state),
                Guarded::new(&list),
            ),
            |(image, state, list)| model::run(image.lend(), state.lend_mut(), list.lend()).into(),
            |(image, state, list)| {
                kulabismuth::fdr_run(image.lend(), state.lend_mut(), list.lend())
            },
        );
    }
    tally.finish(LEAST, &[0, 17, 18, 19, 20, 21, 22]);
}
