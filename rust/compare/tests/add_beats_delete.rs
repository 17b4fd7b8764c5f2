//! Document 02 §3 on inputs made for it: operators that add and delete one atom, or
//! set and clear one value. Besides the comparison, each test counts the inputs on
//! which a rule near the right one answers otherwise.

use compare::tally::INPUTS;
use compare::{calls, Guarded, Tally};
use inputs::add_delete::{self, Judged};
use inputs::fdr::FdrSpec;
use inputs::structured::changer;
use inputs::task::no;
use inputs::{clauses, state, Rng};
use kulabismuth::Reply;
use reference::clause::{self, Clause};
use reference::marks::mark_bytes;
use reference::synthesis::MOST_ROWS;
use reference::task::{self, Task};
use reference::{fdr, state as model, synthesis, Refusal};
use sources::nearby::judging::{self, Rule, NEARBY, RIGHT};
use sources::nearby::steps::{self, FdrStep, TaskStep};
use sources::Synthesized;

/// How often each rule near the right one answers otherwise.
struct Told {
    call: &'static str,
    rules: Vec<(String, usize)>,
}

impl Told {
    fn new(call: &'static str, names: impl IntoIterator<Item = String>) -> Told {
        Told {
            call,
            rules: names.into_iter().map(|name| (name, 0)).collect(),
        }
    }

    fn count(&mut self, differ: impl IntoIterator<Item = bool>) {
        for ((_, count), differs) in self.rules.iter_mut().zip(differ) {
            *count += usize::from(differs);
        }
    }

    /// Prints the counts and asserts that each is at least this.
    fn finish(self, least: usize) {
        println!("{}: told apart {:?}", self.call, self.rules);
        let rare = self.rules.iter().find(|rule| rule.1 < least);
        assert_eq!(rare, None, "{}: a rule is told apart too rarely", self.call);
    }
}

fn names<T: std::fmt::Debug>(rules: &[T]) -> impl Iterator<Item = String> + '_ {
    rules.iter().map(|rule| format!("{rule:?}"))
}

/// The reply to a step with this result, and the state after it.
fn outcome<T: Clone>(result: Result<Vec<T>, Refusal>, before: &[T]) -> (Reply, Vec<T>) {
    match result {
        Ok(state) => (Reply::finding(0, 0), state),
        Err(refusal) => (Err::<(), _>(refusal).into(), before.to_vec()),
    }
}

/// The reply to a list run that ended so.
fn run_reply(list: &[u16], refusal: Option<Refusal>) -> Reply {
    match refusal {
        Some(refusal) => Err::<(), _>(refusal).into(),
        None => Ok(list.len()).into(),
    }
}

/// Numbers that are mostly operators.
fn list(rng: &mut Rng, operators: usize) -> Vec<u16> {
    let length = rng.between(1, 8);
    let mut number = || match rng.chance(96) {
        true => rng.below(operators) as u16,
        false => state::operator(rng, operators),
    };
    (0..length).map(|_| number()).collect()
}

/// Task steps, and the goal after each of them.
#[test]
fn task_steps_and_goals() {
    let rng = &mut Rng::new(801);
    let mut steps = Tally::new("kb_task_step, add and delete");
    let mut goals = Tally::new("kb_task_goal, add and delete");
    let mut told = Told::new("kb_task_step", names(&TaskStep::NEARBY));
    let mut goals_told = Told::new("kb_task_goal", names(&[TaskStep::DeletesLast]));
    while !steps.is_full() {
        let image = add_delete::task(rng).image();
        let task = task::read(&image).expect("a right image");
        let before = state::valid(rng, task.atoms());
        let operator = state::operator(rng, task.operators());
        let (reply, (_, after)) = steps.compare(
            operator,
            (Guarded::new(&image), Guarded::new(&before)),
            |(image, state)| model::step(image.lend(), state.lend_mut(), operator).into(),
            |(image, state)| kulabismuth::task_step(image.lend(), state.lend_mut(), operator),
        );
        let right = (reply, after.lend().to_vec());
        let by = |step: TaskStep| outcome(step.apply(&task, &before, operator), &before);
        told.count(TaskStep::NEARBY.map(|step| by(step) != right));
        let (goal, _) = goals.compare(
            (),
            (Guarded::new(&image), after),
            |(image, state)| model::goal(image.lend(), state.lend()).into(),
            |(image, state)| kulabismuth::task_goal(image.lend(), state.lend()),
        );
        let other = model::goal(&image, &by(TaskStep::DeletesLast).1);
        goals_told.count([Reply::from(other) != goal]);
    }
    told.finish(500);
    goals_told.finish(500);
    steps.finish(50, &[0, 19, 20]);
    goals.finish(50, &[0]);
}

#[test]
fn task_runs() {
    let rng = &mut Rng::new(802);
    let mut tally = Tally::new("kb_task_run, add and delete");
    let mut told = Told::new("kb_task_run", names(&TaskStep::NEARBY));
    while !tally.is_full() {
        let image = add_delete::task(rng).image();
        let task = task::read(&image).expect("a right image");
        let before = state::valid(rng, task.atoms());
        let list = list(rng, task.operators());
        let (reply, (_, after, _)) = tally.compare(
            (),
            (
                Guarded::new(&image),
                Guarded::new(&before),
                Guarded::new(&list),
            ),
            |(image, state, list)| model::run(image.lend(), state.lend_mut(), list.lend()).into(),
            |(image, state, list)| {
                kulabismuth::task_run(image.lend(), state.lend_mut(), list.lend())
            },
        );
        told.count(TaskStep::NEARBY.map(|step| {
            let apply = |state: &[u8], operator| step.apply(&task, state, operator);
            let (state, refusal) = steps::run(&before, &list, apply);
            (run_reply(&list, refusal), &state[..]) != (reply, after.lend())
        }));
    }
    told.finish(500);
    tally.finish(50, &[0, 19, 20]);
}

/// The rows of a right set.
fn read_set(task: &Task, words: &[u16]) -> Vec<Clause> {
    clause::read(words, task.atoms()).expect("right rows")
}

/// Whether the clause has two negative literals or more.
fn negative(clause: &Clause) -> bool {
    clause
        .literals()
        .filter(|literal| literal.is_negated())
        .count()
        > 1
}

/// One clause under one operator.
#[test]
fn kept_clauses() {
    let rng = &mut Rng::new(803);
    let mut tally = Tally::new("kb_kept, add and delete");
    let mut told = Told::new("kb_kept", NEARBY.map(|nearby| nearby.name.to_string()));
    let mut answers = [[0; 2]; 2];
    while tally.total() < 2 * INPUTS {
        let Judged { task, set, clause } = add_delete::judged(rng);
        let (image, words) = (task.image(), clauses::words(&set));
        let marks = vec![rng.word() as u8; mark_bytes(usize::from(task.atoms))];
        let lent = (
            Guarded::new(&image),
            Guarded::new(&words),
            Guarded::new(&clause),
            Guarded::new(&marks),
        );
        let reply = calls::kept(&mut tally, lent, 0);
        let task = task::read(&image).expect("a right image");
        let (set, judged) = (read_set(&task, &words), read_set(&task, &clause)[0]);
        answers[usize::from(negative(&judged))][reply.first as usize] += 1;
        let keeps = |rule: Rule| u64::from(rule.keeps(&task, &set, &judged, 0));
        told.count(NEARBY.map(|nearby| keeps(nearby.rule) != reply.first));
    }
    println!("kb_kept: not kept and kept, other clauses and two negative literals {answers:?}");
    assert!(answers.iter().flatten().all(|&count| count > 2_000));
    told.finish(50);
    tally.finish(50, &[0]);
}

/// A set that synthesis finds, one changed a little, one true initially, and one of
/// clauses of two negative literals.
fn set_to_check(rng: &mut Rng, source: &Synthesized) -> Vec<u16> {
    let mut rows = source.rows.clone();
    match rng.below(4) {
        0 => {}
        1 => clauses::mutate(rng, source.atoms(), &mut rows),
        2 => rows = clauses::true_set(rng, &source.initial(), 4),
        _ => {
            let pair = |_| add_delete::two_alike(rng, source.atoms(), no);
            rows.extend((0..2).map(pair));
        }
    }
    clauses::words(&rows)
}

/// What a checker of this rule answers, by the order of document 02 §2.
fn check_by(rule: Rule, task: &Task, set: &[Clause]) -> Reply {
    let initial = task.initial_state();
    let refused = |number, first: usize, second: usize| {
        Reply::from(Err::<(), _>(Refusal {
            number,
            first: first as u64,
            second: second as u64,
        }))
    };
    if let Some(place) = set.iter().position(|clause| !clause.holds(&initial)) {
        return refused(10, place, 0);
    }
    let not_kept = set.iter().enumerate().find_map(|(place, clause)| {
        let fails = |&operator: &usize| !rule.keeps(task, set, clause, operator);
        let operator = (0..task.operators()).find(fails)?;
        Some(refused(11, place, operator))
    });
    not_kept.unwrap_or(Reply::finding(0, 0))
}

/// A task and a set made for each other, the set true initially.
fn judged_to_check(rng: &mut Rng) -> (Vec<u16>, Vec<u16>) {
    loop {
        let Judged {
            mut task,
            mut set,
            clause,
        } = add_delete::judged(rng);
        set.push(clause);
        let initial = state::valid(rng, usize::from(task.atoms));
        task.initial = (0..task.atoms)
            .filter(|&atom| initial[usize::from(atom)] == 1)
            .collect();
        let (image, words) = (task.image(), clauses::words(&set));
        let task = task::read(&image).expect("a right image");
        let set = read_set(&task, &words);
        if set.iter().all(|clause| clause.holds(&initial)) {
            return (image, words);
        }
    }
}

fn task_and_set(rng: &mut Rng) -> (Vec<u16>, Vec<u16>) {
    if rng.chance(70) {
        return judged_to_check(rng);
    }
    let source = Synthesized::new(add_delete::task(rng).image(), rng.between(1, 3));
    let words = set_to_check(rng, &source);
    (source.image, words)
}

#[test]
fn check() {
    let rng = &mut Rng::new(804);
    let mut tally = Tally::new("kb_check, add and delete");
    let mut told = Told::new("kb_check", NEARBY.map(|nearby| nearby.name.to_string()));
    while tally.total() < 2 * INPUTS {
        let (image, words) = task_and_set(rng);
        let task = task::read(&image).expect("a right image");
        let marks = vec![rng.word() as u8; mark_bytes(task.atoms())];
        let lent = (
            Guarded::new(&image),
            Guarded::new(&words),
            Guarded::new(&marks),
        );
        let reply = calls::check(&mut tally, lent);
        let set = read_set(&task, &words);
        told.count(NEARBY.map(|nearby| check_by(nearby.rule, &task, &set) != reply));
    }
    told.finish(20);
    tally.finish(50, &[0, 10, 11]);
}

/// Each rule near the right one in kept clauses, and in guaranteed literals those that
/// differ there.
fn rules_of_synthesis() -> Vec<(String, Rule, Rule)> {
    let kept = NEARBY
        .iter()
        .map(|nearby| (format!("kept: {}", nearby.name), nearby.rule, RIGHT));
    let guaranteed = NEARBY
        .iter()
        .filter(|nearby| nearby.guarantees_otherwise)
        .map(|nearby| (format!("guaranteed: {}", nearby.name), RIGHT, nearby.rule));
    kept.chain(guaranteed).collect()
}

#[test]
fn synthesize() {
    let rng = &mut Rng::new(805);
    let mut tally = Tally::new("kb_synthesize, add and delete");
    let rules = rules_of_synthesis();
    let mut told = Told::new("kb_synthesize", rules.iter().map(|rule| rule.0.clone()));
    while !tally.is_full() {
        let spec = if rng.chance(50) {
            add_delete::task(rng)
        } else {
            add_delete::late_task(rng)
        };
        let image = spec.image();
        let task = task::read(&image).expect("a right image");
        let n = rng.between(1, 3);
        let found = synthesis::run(&task, n, 65535, MOST_ROWS).expect("room enough");
        let words = 3 * found.largest + rng.below(6);
        let lent = (
            Guarded::new(&image),
            Guarded::new(&vec![rng.word(); words]),
            Guarded::new(&vec![rng.word(); words]),
            Guarded::new(&vec![rng.word() as u8; mark_bytes(task.atoms())]),
        );
        let (reply, clauses) = calls::synthesize(&mut tally, lent, n as u16, 65535);
        let rows = &clauses.lend()[..3 * reply.first as usize];
        told.count(rules.iter().map(|&(_, kept, guaranteed)| {
            let (set, rounds) = judging::synthesis(&task, n, kept, guaranteed);
            let words = set.iter().flat_map(Clause::words);
            rounds as u64 != reply.second || !words.eq(rows.iter().copied())
        }));
    }
    told.finish(20);
    tally.finish(50, &[0]);
}

/// An image and a state of it.
fn random_fdr(rng: &mut Rng) -> (FdrSpec, Vec<u16>, Vec<u16>) {
    let spec = add_delete::fdr(rng);
    let (image, state) = (spec.image(), spec.state(rng));
    (spec, image, state)
}

/// Re-encoded steps, and the goal after each of them.
#[test]
fn reencoded_steps_and_goals() {
    let rng = &mut Rng::new(806);
    let mut steps = Tally::new("kb_fdr_step, set and clear");
    let mut goals = Tally::new("kb_fdr_goal, set and clear");
    let mut told = Told::new("kb_fdr_step", names(&FdrStep::NEARBY));
    while !steps.is_full() {
        let (spec, image, before) = random_fdr(rng);
        let operator = state::operator(rng, spec.operators.len());
        let (reply, (_, after)) = steps.compare(
            operator,
            (Guarded::new(&image), Guarded::new(&before)),
            |(image, state)| fdr::step(image.lend(), state.lend_mut(), operator).into(),
            |(image, state)| kulabismuth::fdr_step(image.lend(), state.lend_mut(), operator),
        );
        let right = (reply, after.lend().to_vec());
        let by = |step: FdrStep| outcome(step.apply(&spec, &before, operator), &before);
        told.count(FdrStep::NEARBY.map(|step| by(step) != right));
        goals.compare(
            (),
            (Guarded::new(&image), after),
            |(image, state)| fdr::goal(image.lend(), state.lend()).into(),
            |(image, state)| kulabismuth::fdr_goal(image.lend(), state.lend()),
        );
    }
    told.finish(500);
    steps.finish(50, &[0, 19, 20, 21, 22]);
    goals.finish(50, &[0]);
}

#[test]
fn reencoded_runs() {
    let rng = &mut Rng::new(807);
    let mut tally = Tally::new("kb_fdr_run, set and clear");
    let mut told = Told::new("kb_fdr_run", names(&FdrStep::NEARBY));
    while !tally.is_full() {
        let (spec, image, before) = random_fdr(rng);
        let list = list(rng, spec.operators.len());
        let (reply, (_, after, _)) = tally.compare(
            (),
            (
                Guarded::new(&image),
                Guarded::new(&before),
                Guarded::new(&list),
            ),
            |(image, state, list)| fdr::run(image.lend(), state.lend_mut(), list.lend()).into(),
            |(image, state, list)| {
                kulabismuth::fdr_run(image.lend(), state.lend_mut(), list.lend())
            },
        );
        told.count(FdrStep::NEARBY.map(|step| {
            let apply = |state: &[u16], operator| step.apply(&spec, state, operator);
            let (state, refusal) = steps::run(&before, &list, apply);
            (run_reply(&list, refusal), &state[..]) != (reply, after.lend())
        }));
    }
    told.finish(500);
    tally.finish(50, &[0, 19, 20, 21, 22]);
}

/// Demand 3 along lists, for sets that synthesis finds.
#[test]
fn agree() {
    let rng = &mut Rng::new(808);
    let mut tally = Tally::new("kb_agree, add and delete");
    while !tally.is_full() {
        let image = add_delete::task(rng).image();
        let source = Synthesized::new(image, rng.between(1, 3));
        let list = list(rng, usize::from(source.image[1]));
        let lent = (
            Guarded::new(&source.image),
            Guarded::new(&clauses::words(&source.rows)),
            Guarded::new(&list),
            Guarded::new(&vec![rng.word() as u8; mark_bytes(source.atoms())]),
        );
        let reply = calls::agree(&mut tally, lent);
        assert_eq!(reply, Reply::finding(1, 0), "{:?}", source.image);
    }
    tally.finish(50, &[0]);
}

/// The witnesses of `<: +0 -0 +1 -1>` and of the changer, written down.
#[test]
fn as_written_down() {
    let image = [2, 1, 8, 0, 8, 0, 8, 10, 0, 4, 0, 0, 1, 0, 2, 0, 3, 0];
    let kept = |row: [u16; 3]| kulabismuth::kept(&image, &[], &row, 0, &mut [0]);
    assert_eq!(kept([0, 65535, 65535]), Reply::finding(1, 0));
    assert_eq!(kept([1, 65535, 65535]), Reply::finding(0, 0));
    assert_eq!(kept([1, 3, 65535]), Reply::finding(0, 0));
    assert_eq!(kept([0, 3, 65535]), Reply::finding(1, 0));
    let mut state = [1, 0];
    let step = kulabismuth::task_step(&image, &mut state, 0);
    assert_eq!((step, state), (Reply::finding(0, 0), [1, 1]));
    let image = changer(2, 3).image();
    let mut state = [1, 0, 0, 0, 1, 0];
    let run = kulabismuth::task_run(&image, &mut state, &[0, 4, 2, 1, 0]);
    let refused = Reply::from(Err::<(), _>(Refusal {
        number: 20,
        first: 3,
        second: 0,
    }));
    assert_eq!((run, state), (refused, [0, 0, 1, 0, 1, 0]));
}
