//! Reading the largest images; a million steps; asks and commits.

use inputs::{random, structured, Rng};
use kulabismuth::Reply;
use reference::state as model;
use reference::ticket::{self, Ticket};

use crate::timing::{walk, Bench};

const READS: usize = 2_000;
const STEPS: usize = 1_000_000;
/// As many commits as the count admits.
const COMMITS: usize = 65_535;

pub fn run(bench: &Bench) {
    let rng = &mut Rng::new(1);
    for number in 0..3 {
        let image = random::largest(rng).image();
        assert_eq!(image.len(), 8192);
        read(
            bench,
            &format!("read image {number} of 8192 words by kb_read"),
            &image,
        );
    }
    step_benches(bench, rng);
    let ring = structured::ring(3).image();
    ticket_benches(bench, rng, "ring 3", &ring, COMMITS);
    let large = random::largest(rng).image();
    ticket_benches(bench, rng, "8192 words", &large, 10_000);
}

fn step_benches(bench: &Bench, rng: &mut Rng) {
    let large = random::largest(rng).image();
    let gripper = structured::gripper(4, 3, 2).image();
    let ring = structured::ring(3).image();
    let changer = structured::changer(6, 8).image();
    let named = [
        ("8192 words", &large),
        ("gripper 4", &gripper),
        ("ring 3", &ring),
        ("changer 6 8", &changer),
    ];
    for (name, image) in named {
        let list = random_list(rng, image, STEPS);
        run_list(
            bench,
            &format!("{STEPS} steps, {name}, by one kb_task_run"),
            image,
            &list,
        );
    }
    let list = random_list(rng, &ring, STEPS);
    steps(
        bench,
        &format!("{STEPS} steps, ring 3, by kb_task_step"),
        &ring,
        &list,
    );
    let list = random_list(rng, &large, 10_000);
    steps(
        bench,
        "10000 steps, 8192 words, by kb_task_step",
        &large,
        &list,
    );
}

fn read(bench: &Bench, name: &str, image: &[u16]) {
    bench.compare(
        name,
        READS,
        &(),
        |()| {
            (0..READS)
                .map(|_| kulabismuth::read(image))
                .max_by_key(number)
        },
        |()| {
            let reads = (0..READS).map(|_| reference::task::read(image).map(|_| ()).into());
            reads.max_by_key(number)
        },
    );
}

fn number(reply: &Reply) -> u32 {
    reply.number
}

/// The initial state.
fn initial(image: &[u16]) -> Vec<u8> {
    let mut state = vec![0; usize::from(image[0])];
    model::initial(image, &mut state).expect("a right image");
    state
}

/// A list that runs from the initial state.
fn random_list(rng: &mut Rng, image: &[u16], length: usize) -> Vec<u16> {
    let task = reference::task::read(image).expect("a right image");
    let mut state = initial(image);
    let mut fired = Vec::new();
    walk(rng, task.operators(), length, |operator| {
        model::apply(&task, &mut state, operator, &mut fired).is_ok()
    })
}

fn run_list(bench: &Bench, name: &str, image: &[u16], list: &[u16]) {
    bench.compare(
        name,
        list.len(),
        &initial(image),
        |state| (kulabismuth::task_run(image, state, list), state.clone()),
        |state| (model::run(image, state, list).into(), state.clone()),
    );
}

fn steps(bench: &Bench, name: &str, image: &[u16], list: &[u16]) {
    bench.compare(
        name,
        list.len(),
        &initial(image),
        |state| {
            let step = |&operator| kulabismuth::task_step(image, state, operator);
            (list.iter().map(step).max_by_key(number), state.clone())
        },
        |state| {
            let step = |&operator| model::step(image, state, operator).into();
            (list.iter().map(step).max_by_key(number), state.clone())
        },
    );
}

/// A list that runs: each operator is asked for in the initial state, which may be
/// refused, and each is committed in its turn.
fn ticket_benches(bench: &Bench, rng: &mut Rng, name: &str, image: &[u16], times: usize) {
    let list = random_list(rng, image, times);
    let line = |what: &str, call: &str| format!("{times} {what}, {name}, by {call}");
    asks(bench, &line("asks", "kb_ask"), image, &list);
    commits(bench, &line("commits", "kb_commit"), image, &list);
}

fn asks(bench: &Bench, name: &str, image: &[u16], list: &[u16]) {
    bench.compare(
        name,
        list.len(),
        &initial(image),
        |state| {
            let ask = |&operator| kulabismuth::ask(image, state, 0, operator);
            list.iter().map(ask).max_by_key(number)
        },
        |state| {
            let ask = |&operator| ticket::ask(image, state, 0, operator).into();
            list.iter().map(ask).max_by_key(number)
        },
    );
}

fn commits(bench: &Bench, name: &str, image: &[u16], list: &[u16]) {
    let tickets = || (0..).zip(list);
    bench.compare(
        name,
        list.len(),
        &(initial(image), 0),
        |(state, count)| {
            let commit = |(of, &operator)| kulabismuth::commit(image, state, count, of, operator);
            let highest = tickets().map(commit).max_by_key(number);
            (highest, state.clone(), *count)
        },
        |(state, count)| {
            let commit = |(of, &operator)| {
                let ticket = Ticket {
                    count: of,
                    operator,
                };
                ticket::commit(image, state, count, ticket).into()
            };
            let highest = tickets().map(commit).max_by_key(number);
            (highest, state.clone(), *count)
        },
    );
}
