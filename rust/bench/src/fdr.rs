//! Re-encoding, and a million finite-domain steps.

use inputs::{structured, Rng};
use kulabismuth::Reply;
use reference::marks::MOST_MARK_BYTES;
use reference::{fdr as model, reencoding};
use sources::Synthesized;

use crate::timing::{walk, Bench};

const STEPS: usize = 1_000_000;

pub fn run(bench: &Bench) {
    let rng = &mut Rng::new(2);
    let source = Synthesized::new(structured::gripper(14, 2, 2).image(), 2);
    reencode(bench, "re-encoding gripper 14", &source);
    let image = source.reencoded();
    let list = random_list(rng, &image, STEPS);
    run_list(
        bench,
        "1000000 steps, gripper 14 re-encoded, by one kb_fdr_run",
        &image,
        &list,
    );
    let small = Synthesized::new(structured::ring(3).image(), 2).reencoded();
    let list = random_list(rng, &small, STEPS);
    steps(
        bench,
        "1000000 steps, ring 3 re-encoded, by kb_fdr_step",
        &small,
        &list,
    );
}

fn reencode(bench: &Bench, name: &str, source: &Synthesized) {
    let rows = source.rows.concat();
    bench.compare(
        name,
        1,
        &(vec![0; MOST_MARK_BYTES], vec![0; 32_768]),
        |(marks, target)| {
            let reply = kulabismuth::reencode(&source.image, &rows, marks, target);
            (reply, target.clone())
        },
        |(marks, target)| {
            let answer = reencoding::reencode(&source.image, &rows, marks, target);
            (answer.into(), target.clone())
        },
    );
}

/// The initial state.
fn initial(image: &[u16]) -> Vec<u16> {
    let mut state = vec![0; usize::from(image[0])];
    model::initial(image, &mut state).expect("a right image");
    state
}

/// A list that runs from the initial state.
pub fn random_list(rng: &mut Rng, image: &[u16], length: usize) -> Vec<u16> {
    let task = model::read(image).expect("a right image");
    let mut state = initial(image);
    let mut fired = Vec::new();
    walk(rng, task.operators(), length, |operator| {
        task.apply(&mut state, operator, &mut fired).is_ok()
    })
}

fn run_list(bench: &Bench, name: &str, image: &[u16], list: &[u16]) {
    bench.compare(
        name,
        list.len(),
        &initial(image),
        |state| (kulabismuth::fdr_run(image, state, list), state.clone()),
        |state| (model::run(image, state, list).into(), state.clone()),
    );
}

fn steps(bench: &Bench, name: &str, image: &[u16], list: &[u16]) {
    let number = |reply: &Reply| reply.number;
    bench.compare(
        name,
        list.len(),
        &initial(image),
        |state| {
            let step = |&operator| kulabismuth::fdr_step(image, state, operator);
            (list.iter().map(step).max_by_key(number), state.clone())
        },
        |state| {
            let step = |&operator| model::step(image, state, operator).into();
            (list.iter().map(step).max_by_key(number), state.clone())
        },
    );
}
