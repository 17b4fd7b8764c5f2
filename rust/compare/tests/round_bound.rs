//! The bound on rounds (document 02 §5): on all small tasks of document 02 §13, on
//! random ones and on structured ones. The most rounds seen are printed.

use std::collections::BTreeMap;

use compare::{calls, Guarded, Tally};
use inputs::rounds::{chain, counter, walk, walk_of_pairs};
use inputs::structured::{blocks, briefcase, changer, gripper, ring, transport};
use inputs::task::TaskSpec;
use inputs::{add_delete, random, small, Rng};
use kulabismuth::Reply;
use reference::marks::mark_bytes;
use reference::round_bound::{choose, possible_clauses, round_bound};
use reference::synthesis::MOST_ROWS;

const LEAST: usize = 50;

/// Tasks drawn of those with three atoms and two operators.
const DRAWN: usize = 500_000;

/// The number of clauses of 1 to n literals that are false in a given state.
fn false_clauses(atoms: u64, n: u16) -> u64 {
    (1..=n.into()).map(|k| choose(atoms, k)).sum()
}

/// The rounds are within the bound, and within a sharper one. Each failing round loses a
/// possible clause that contained one of its set; the clauses that are false initially
/// never do.
fn assert_within(atoms: u64, n: u16, rounds: u64, image: &[u16]) {
    let bound = round_bound(atoms, n.into());
    let sharper = bound - false_clauses(atoms, n);
    assert!((1..=sharper).contains(&rounds), "{rounds} {n} {image:?}");
}

/// The bound as a limit, or the highest limit if the bound is above it.
fn bound_as_limit(atoms: u64, n: u16) -> u16 {
    let bound = round_bound(atoms, n.into());
    u16::try_from(bound).unwrap_or(u16::MAX)
}

/// Both sides with a clause buffer of so many rows: the answer and the buffer.
fn synthesize(
    tally: &mut Tally,
    image: &[u16],
    (n, limit, rows): (u16, u16, usize),
) -> (Reply, Guarded<u16>) {
    let lent = (
        Guarded::new(image),
        Guarded::new(&vec![1; 3 * rows]),
        Guarded::new(&vec![2; 3 * rows]),
        Guarded::new(&vec![3; mark_bytes(usize::from(image[0]))]),
    );
    calls::synthesize(tally, lent, n, limit)
}

/// The most rounds seen for so many atoms and n, and the first task that made them.
#[derive(Default)]
struct Most(BTreeMap<(u64, u16), (u64, String)>);

impl Most {
    fn see(&mut self, atoms: u64, n: u16, rounds: u64, name: impl FnOnce() -> String) {
        let most = self.0.entry((atoms, n)).or_default();
        if rounds > most.0 {
            *most = (rounds, name());
        }
    }

    fn rounds(&self, atoms: u64) -> [u64; 3] {
        [1, 2, 3].map(|n| self.0[&(atoms, n)].0)
    }

    fn print(&self, title: &str) {
        print_head(title);
        for (&(atoms, n), (rounds, name)) in &self.0 {
            print_line(atoms, n, *rounds, name);
        }
    }

    /// For each n only the line with the most rounds.
    fn print_largest(&self, title: &str) {
        print_head(title);
        for n in 1..=3 {
            let of_n = self.0.iter().filter(|(key, _)| key.1 == n);
            if let Some((&(atoms, _), (rounds, name))) = of_n.max_by_key(|(_, most)| most.0) {
                print_line(atoms, n, *rounds, name);
            }
        }
    }
}

fn print_head(title: &str) {
    println!("{title}: N, n, bound, rounds, task");
}

fn print_line(atoms: u64, n: u16, rounds: u64, name: &str) {
    let bound = round_bound(atoms, n.into());
    println!("{atoms:5} {n} {bound:10} {rounds:6}  {name}");
}

/// What is asked of each small task: with the bound as limit, and with others.
struct Small {
    at_bound: Tally,
    other_limits: Tally,
    most: Most,
}

impl Small {
    fn new() -> Small {
        Small {
            at_bound: Tally::new("kb_synthesize, small tasks, the bound as limit"),
            other_limits: Tally::new("kb_synthesize, small tasks, other limits"),
            most: Most::default(),
        }
    }

    fn all(&mut self, atoms: u16, operators: u16) {
        for k in 0..small::count(atoms, operators) {
            self.task(atoms, operators, k);
        }
    }

    fn task(&mut self, atoms: u16, operators: u16, k: u64) {
        let image = small::small(atoms, operators, k).image();
        for n in 1..=3 {
            let rounds = self.rounds(&image, n);
            let name = || format!("N = {atoms}, M = {operators}, k = {k}");
            self.most.see(atoms.into(), n, rounds, name);
        }
    }

    /// The rounds made. They do not depend on the limit: a higher one, and the rounds
    /// made, give the same finding, and one less 15.
    fn rounds(&mut self, image: &[u16], n: u16) -> u64 {
        let atoms = u64::from(image[0]);
        let bound = bound_as_limit(atoms, n);
        let rows = possible_clauses(atoms, n.into()) as usize;
        let found = synthesize(&mut self.at_bound, image, (n, bound, rows));
        assert_eq!(found.0.number, 0, "{n} {image:?}");
        let rounds = found.0.second;
        assert_within(atoms, n, rounds, image);
        for limit in [rounds as u16, u16::MAX] {
            let again = synthesize(&mut self.other_limits, image, (n, limit, rows));
            assert_eq!(again, found, "{n} {limit} {image:?}");
        }
        if rounds > 1 {
            let less = (n, rounds as u16 - 1, rows);
            let (reply, _) = synthesize(&mut self.other_limits, image, less);
            assert_eq!(reply.number, 15, "{n} {image:?}");
        }
        self.few_rows(image, n, found.0);
        rounds
    }

    /// With no more rows than C0 has: the same finding, or 14.
    fn few_rows(&mut self, image: &[u16], n: u16, found: Reply) {
        let atoms = image[0];
        let limit = bound_as_limit(atoms.into(), n);
        let few = (n, limit, usize::from(atoms));
        let (reply, _) = synthesize(&mut self.at_bound, image, few);
        assert!(reply == found || reply.number == 14, "{n} {image:?}");
    }

    fn finish(self) {
        self.most.print("small tasks");
        self.at_bound.finish(LEAST, &[0, 14]);
        self.other_limits.finish(LEAST, &[0, 15]);
    }
}

/// All tasks with one or two atoms, and with three atoms and at most one operator; some
/// with three atoms and two operators. The bound is not tight: the rounds written here
/// are the most that all these tasks make.
#[test]
fn small_tasks() {
    let mut checks = Small::new();
    for operators in 0..=2 {
        checks.all(1, operators);
        checks.all(2, operators);
    }
    checks.all(3, 0);
    checks.all(3, 1);
    assert_eq!(checks.most.rounds(1), [2, 2, 2]);
    assert_eq!(checks.most.rounds(2), [3, 4, 4]);
    assert_eq!(checks.most.rounds(3), [2, 2, 2]);
    let rng = &mut Rng::new(501);
    for _ in 0..DRAWN {
        let k = rng.below(small::count(3, 2) as usize);
        checks.task(3, 2, k as u64);
    }
    assert_eq!(checks.most.rounds(3), [3, 4, 4]);
    checks.finish();
}

/// All tasks with three atoms and two operators.
#[test]
#[ignore = "takes minutes"]
fn all_of_three_atoms() {
    let mut checks = Small::new();
    checks.all(3, 2);
    assert_eq!(checks.most.rounds(3), [3, 4, 4]);
    checks.finish();
}

/// The rounds made with the bound as limit, where question 12 admits it, and with as
/// many rows as can count, which have room for all tasks here.
fn rounds_at_bound(tally: &mut Tally, image: &[u16], n: u16) -> u64 {
    let atoms = u64::from(image[0]);
    let rows = possible_clauses(atoms, n.into()).min(MOST_ROWS as u64) as usize;
    let limit = bound_as_limit(atoms, n);
    let (reply, _) = synthesize(tally, image, (n, limit, rows));
    assert_eq!(reply.number, 0, "{n} {image:?}");
    assert_within(atoms, n, reply.second, image);
    reply.second
}

/// Random tasks, most of them of the kinds that other tests use.
#[test]
fn random_tasks() {
    let rng = &mut Rng::new(502);
    let mut tally = Tally::new("kb_synthesize, random tasks, the bound as limit");
    let mut most = Most::default();
    let mut number = 0;
    while !tally.is_full() {
        number += 1;
        let task = match number % 40 {
            0 => random::task(rng, &random::MEDIUM),
            1..=10 => add_delete::task(rng),
            11..=20 => add_delete::late_task(rng),
            _ => random::small(rng),
        };
        for n in 1..=3 {
            let rounds = rounds_at_bound(&mut tally, &task.image(), n);
            let name = || format!("task {number}");
            most.see(task.atoms.into(), n, rounds, name);
        }
    }
    most.print_largest("random tasks");
    tally.finish(LEAST, &[0]);
}

/// The structured tasks of other tests and of the benchmarks.
#[test]
fn structured_tasks() {
    let tasks = [
        ("ring 30", ring(30)),
        ("ring 100", ring(100)),
        ("ring 141", ring(141)),
        ("gripper 4 3 2", gripper(4, 3, 2)),
        ("gripper 14 2 2", gripper(14, 2, 2)),
        ("blocks 4", blocks(4)),
        ("blocks 7", blocks(7)),
        ("briefcase 4 3", briefcase(4, 3)),
        ("briefcase 10 4", briefcase(10, 4)),
        ("transport 2 4 4", transport(2, 4, 4)),
        ("transport 3 8 5", transport(3, 8, 5)),
        ("changer 3 4", changer(3, 4)),
        ("changer 6 8", changer(6, 8)),
    ];
    let mut tally = Tally::new("kb_synthesize, structured tasks, the bound as limit");
    print_head("structured tasks");
    for (name, task) in tasks {
        for n in 1..=3 {
            let rounds = rounds_at_bound(&mut tally, &task.image(), n);
            print_line(task.atoms.into(), n, rounds, name);
        }
    }
}

/// A task made to take many rounds: its name, itself, n and the rounds.
type Long = (&'static str, TaskSpec, u16, u64);

fn assert_rounds(tasks: &[Long]) {
    let mut tally = Tally::new("kb_synthesize, many rounds");
    print_head("tasks of many rounds");
    for (name, task, n, expected) in tasks {
        let rounds = rounds_at_bound(&mut tally, &task.image(), *n);
        assert_eq!(rounds, *expected, "{name}");
        print_line(task.atoms.into(), *n, rounds, name);
    }
}

/// With n = 1 chains make N + 1 rounds: the sharper bound is reached.
#[test]
fn many_rounds() {
    assert_rounds(&[
        ("chain 3", chain(3), 1, 4),
        ("chain 10", chain(10), 1, 11),
        ("chain 36", chain(36), 1, 37),
        ("chain 60", chain(60), 1, 61),
        ("chain 181", chain(181), 1, 182),
        ("chain 1024", chain(1024), 1, 1025),
        ("walk 3 2", walk(3, 2), 2, 1 + 3 + 3),
        ("walk 10 2", walk(10, 2), 2, 1 + 10 + 45),
        ("walk_of_pairs 36", walk_of_pairs(36), 2, 1 + 36 + 630),
        ("walk_of_pairs 60", walk_of_pairs(60), 2, 1 + 60 + 1770),
        ("walk 3 3", walk(3, 3), 3, 1 + 3 + 3 + 1),
        ("walk 10 3", walk(10, 3), 3, 1 + 10 + 45 + 120),
        ("counter 12 12 12", counter(&[12; 3]), 3, 12 * 12 * 12),
    ]);
}

/// Counters with more rounds yet, and with atoms that no operator names besides.
#[test]
#[ignore = "takes minutes"]
fn most_rounds() {
    let with_atoms = |atoms, digits: &[u16]| TaskSpec {
        atoms,
        ..counter(digits)
    };
    assert_rounds(&[
        ("counter 90 91", counter(&[90, 91]), 2, 90 * 91),
        ("counter 60 60", with_atoms(1024, &[60, 60]), 2, 60 * 60),
        ("counter 20 20 20", counter(&[20; 3]), 3, 20 * 20 * 20),
        ("counter 20 20 20", with_atoms(181, &[20; 3]), 3, 8000),
        ("counter 20 20 20", with_atoms(1024, &[20; 3]), 3, 8000),
    ]);
}
