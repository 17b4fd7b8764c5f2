//! The task calls: reading, setting to the initial state, steps, goal tests
//! and list runs.

use compare::{Guarded, Tally};
use inputs::damage::any_task_image;
use inputs::{state, Rng};
use reference::state as model;

/// Images damaged so often, in percent.
const DAMAGED: usize = 40;

/// Each number must occur so often.
const LEAST: usize = 100;

/// Every number of reading, with a finding as 0, and these.
fn numbers(more: &[u32]) -> Vec<u32> {
    (0..=7).chain(more.iter().copied()).collect()
}

/// The numbers of atoms and operators an image claims, cut to what is sensible.
fn claimed(image: &[u16]) -> (usize, usize) {
    let claim = |place| usize::from(image.get(place).copied().unwrap_or(1));
    (claim(0).min(1100), claim(1).min(1100))
}

/// The initial state, a random one or a damaged one.
fn random_state(rng: &mut Rng, image: &[u16]) -> Vec<u8> {
    let atoms = claimed(image).0;
    match rng.below(10) {
        0 => state::damaged(rng, atoms),
        1..=4 => state::valid(rng, atoms),
        _ => {
            let mut state = vec![0; atoms];
            let _ = model::initial(image, &mut state);
            state
        }
    }
}

/// An operator that can be applied, if one is soon found, else any number.
fn random_operator(rng: &mut Rng, image: &[u16], state: &[u8]) -> u16 {
    let operators = claimed(image).1;
    let mut operator = state::operator(rng, operators);
    let tries = rng.below(4);
    for _ in 0..tries {
        if model::step(image, &mut state.to_vec(), operator).is_ok() {
            break;
        }
        operator = state::operator(rng, operators);
    }
    operator
}

#[test]
fn read() {
    let rng = &mut Rng::new(101);
    let mut tally = Tally::new("kb_read");
    while !tally.is_full() {
        let image = Guarded::new(&any_task_image(rng, 60));
        tally.compare(
            (),
            image,
            |image| reference::task::read(image.lend()).map(|_| ()).into(),
            |image| kulabismuth::read(image.lend()),
        );
    }
    tally.finish(LEAST, &numbers(&[]));
}

/// Images with the answer to reading them written down.
#[test]
fn images_as_written_down() {
    let read = |image: &[u16]| {
        let reply = kulabismuth::read(image);
        (reply.number, reply.first, reply.second)
    };
    assert_eq!(read(&inputs::structured::ring(3).image()), (0, 0, 0));
    assert_eq!(read(&[]), (1, 0, 0));
    assert_eq!(read(&[1, 0, 6, 0, 6]), (1, 0, 0));
    assert_eq!(read(&[0; 8193]), (1, 0, 0));
    assert_eq!(read(&[0, 0, 6, 0, 6, 0]), (2, 0, 0));
    assert_eq!(read(&[1, 1025, 6, 0, 6, 0]), (2, 0, 0));
    assert_eq!(read(&[1, 0, 6, 65530, 0, 6]), (3, 0, 0));
    assert_eq!(read(&[2, 0, 6, 2, 8, 0, 1, 0]), (4, 0, 0));
    assert_eq!(read(&[2, 0, 6, 0, 6, 2, 2, 3]), (5, 0, 0));
    assert_eq!(read(&[1, 1, 8, 0, 8, 0, 8, 0]), (6, 0, 0));
    assert_eq!(read(&[1, 1, 8, 0, 8, 0, 8, 2, 1, 0]), (6, 0, 0));
    assert_eq!(read(&[1, 1, 8, 0, 8, 0, 8, 2, 65535, 0]), (6, 0, 0));
    assert_eq!(read(&[1, 1, 8, 0, 8, 0, 8, 4, 0, 1, 2, 0]), (7, 0, 0));
    // Question 7 of operator 0 comes before 6 of operator 1, and 6 of 0 first.
    let head = [1, 2, 10, 0, 10, 0, 10, 4, 14, 1];
    assert_eq!(read(&[&head[..], &[0, 1, 2, 0, 9]].concat()), (7, 0, 0));
    assert_eq!(read(&[&head[..], &[0, 1, 1, 0, 9]].concat()), (6, 1, 0));
    assert_eq!(read(&[&head[..], &[0, 2, 2, 0, 9]].concat()), (6, 0, 0));
}

#[test]
fn initial() {
    let rng = &mut Rng::new(102);
    let mut tally = Tally::new("kb_task_initial");
    while !tally.is_full() {
        let image = any_task_image(rng, DAMAGED);
        let mut state = random_state(rng, &image);
        if rng.chance(50) {
            // What the state holds before does not matter.
            state.fill(rng.word() as u8);
        }
        tally.compare(
            (),
            (Guarded::new(&image), Guarded::new(&state)),
            |(image, state)| model::initial(image.lend(), state.lend_mut()).into(),
            |(image, state)| kulabismuth::task_initial(image.lend(), state.lend_mut()),
        );
    }
    tally.finish(LEAST, &numbers(&[18]));
}

#[test]
fn step() {
    let rng = &mut Rng::new(103);
    let mut tally = Tally::new("kb_task_step");
    while !tally.is_full() {
        let image = any_task_image(rng, DAMAGED);
        let mut state = Guarded::new(&random_state(rng, &image));
        let image = Guarded::new(&image);
        for _ in 0..rng.between(1, 4) {
            let operator = random_operator(rng, image.lend(), state.lend());
            let (_, (_, next)) = tally.compare(
                operator,
                (image.clone(), state),
                |(image, state)| model::step(image.lend(), state.lend_mut(), operator).into(),
                |(image, state)| kulabismuth::task_step(image.lend(), state.lend_mut(), operator),
            );
            state = next;
        }
    }
    tally.finish(LEAST, &numbers(&[18, 19, 20]));
}

#[test]
fn goal() {
    let rng = &mut Rng::new(104);
    let mut tally = Tally::new("kb_task_goal");
    let mut met = [0; 2];
    while !tally.is_full() {
        let image = any_task_image(rng, DAMAGED);
        let state = random_state(rng, &image);
        let (reply, _) = tally.compare(
            (),
            (Guarded::new(&image), Guarded::new(&state)),
            |(image, state)| model::goal(image.lend(), state.lend()).into(),
            |(image, state)| kulabismuth::task_goal(image.lend(), state.lend()),
        );
        if reply.number == 0 {
            met[reply.first as usize] += 1;
        }
    }
    println!("kb_task_goal: not met and met {met:?}");
    assert!(met.iter().all(|&count| count > 1_000));
    tally.finish(LEAST, &numbers(&[18]));
}

/// A list that runs for a while: each number is chosen in the state before it.
fn random_list(rng: &mut Rng, image: &[u16], state: &[u8]) -> Vec<u16> {
    if rng.chance(30) {
        return state::list(rng, claimed(image).1);
    }
    let mut state = state.to_vec();
    let length = *rng.pick(&[1, 4, 10, 30]);
    let choose = |_| {
        let operator = random_operator(rng, image, &state);
        let _ = model::step(image, &mut state, operator);
        operator
    };
    (0..length).map(choose).collect()
}

#[test]
fn run() {
    let rng = &mut Rng::new(105);
    let mut tally = Tally::new("kb_task_run");
    let mut long = 0;
    while !tally.is_full() {
        let image = any_task_image(rng, DAMAGED);
        let state = random_state(rng, &image);
        let list = random_list(rng, &image, &state);
        let (reply, _) = tally.compare(
            (),
            (
                Guarded::new(&image),
                Guarded::new(&state),
                Guarded::new(&list),
            ),
            |(image, state, list)| model::run(image.lend(), state.lend_mut(), list.lend()).into(),
            |(image, state, list)| {
                kulabismuth::task_run(image.lend(), state.lend_mut(), list.lend())
            },
        );
        long += usize::from((19..=20).contains(&reply.number) && reply.first > 1);
    }
    println!("kb_task_run: refused after two steps or more {long}");
    assert!(long > 500);
    tally.finish(LEAST, &numbers(&[18, 19, 20]));
}
