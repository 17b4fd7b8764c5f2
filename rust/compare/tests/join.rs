//! Two tasks joined (document 02 §6): images, lists run in the joined task and in the
//! parts, and unions of accepted sets.

use compare::runs::{initial, run};
use compare::{calls, Guarded, Kinds, Tally};
use inputs::join::{self, Pair};
use inputs::structured::ring;
use inputs::{clauses, random, Rng};
use kulabismuth::Reply;
use reference::join as model;
use reference::marks::mark_bytes;
use reference::task;

/// Each kind of answer must occur so often.
const LEAST: usize = 50;

/// The first image, the second and the target.
type Lent = (Guarded<u16>, Guarded<u16>, Guarded<u16>);

fn compare_join(tally: &mut Tally, lent: Lent) -> (Reply, Lent) {
    tally.compare(
        (),
        lent,
        |(left, right, target)| model::join(left.lend(), right.lend(), target.lend_mut()).into(),
        |(left, right, target)| kulabismuth::join(left.lend(), right.lend(), target.lend_mut()),
    )
}

/// The library's joined image, compared with the reference's.
fn joined(tally: &mut Tally, left: &[u16], right: &[u16]) -> Vec<u16> {
    let length = left.len() + right.len() - 6;
    let lent = (
        Guarded::new(left),
        Guarded::new(right),
        Guarded::new(&vec![7; length]),
    );
    let (reply, (_, _, target)) = compare_join(tally, lent);
    assert_eq!(reply, Reply::finding(length as u64, 0));
    target.lend().to_vec()
}

/// What would answer question 27 with "no", each cause for itself, and by how much.
fn causes(pair: &Pair, target: usize) -> Vec<(&'static str, usize)> {
    let sum = |place: usize| {
        let number = |image: &[u16]| usize::from(image.get(place).copied().unwrap_or(0));
        number(&pair.left) + number(&pair.right)
    };
    let words = pair.joined_words();
    let causes = [
        ("atoms", sum(0).saturating_sub(1024)),
        ("operators", sum(1).saturating_sub(1024)),
        ("words", words.saturating_sub(8192)),
        ("target", words.saturating_sub(target)),
    ];
    causes.into_iter().filter(|&(_, over)| over > 0).collect()
}

/// Sees what caused 27, and whether it was one limit alone, passed by one.
fn see_27(kinds: &mut Kinds, causes: &[(&'static str, usize)]) {
    let names: Vec<&str> = causes.iter().map(|&(name, _)| name).collect();
    kinds.see(format!("27: {}", names.join(", ")));
    if let &[(name, 1)] = causes {
        kinds.see(format!("passed by one: {name}"));
    }
}

/// Sees of which image a refusal is, or what caused 27, and what has to wait for it.
fn see_answer(kinds: &mut Kinds, pair: &Pair, target: usize, reply: Reply) {
    let [left, right] = [&pair.left, &pair.right].map(|image| task::read(image).err());
    let causes = causes(pair, target);
    match (left, right) {
        (Some(left), right) => {
            kinds.see(format!("first refused {}", left.number));
            let other = right.is_some_and(|right| right != left);
            kinds.see_if(other, "first refused, the second otherwise");
        }
        (None, Some(right)) => {
            kinds.see(format!("second refused {}", right.number));
            kinds.see_if(!causes.is_empty(), "second refused, 27 due");
        }
        (None, None) if reply.number == 27 => see_27(kinds, &causes),
        (None, None) => see_finding(kinds, pair, target),
    }
}

/// Sees what was joined.
fn see_finding(kinds: &mut Kinds, pair: &Pair, target: usize) {
    kinds.see("joined");
    let tasks = [&pair.left, &pair.right].map(|image| task::read(image).expect("joined"));
    let without = |empty: &dyn Fn(&task::Task) -> bool| match [&tasks[0], &tasks[1]].map(empty) {
        [true, true] => "neither",
        [true, false] => "only the second",
        [false, true] => "only the first",
        [false, false] => "both",
    };
    let operators = without(&|task| task.operators() == 0);
    let initial = without(&|task| task.initial().is_empty());
    let goal = without(&|task| task.goal().is_empty());
    kinds.see(format!("operators: {operators}"));
    kinds.see(format!("initial atoms: {initial}"));
    kinds.see(format!("goal: {goal}"));
    let words = pair.joined_words();
    kinds.see_if(tasks[0].atoms() + tasks[1].atoms() == 1024, "1024 atoms");
    let operators = tasks[0].operators() + tasks[1].operators();
    kinds.see_if(operators == 1024, "1024 operators");
    kinds.see_if(words == 8192, "8192 words");
    kinds.see_if(pair.left.len() == 8192, "joined, the first of 8192 words");
    kinds.see_if(pair.right.len() == 8192, "joined, the second of 8192 words");
    kinds.see_if(words == target, "joined, target of the exact length");
    kinds.see_if(target > 8192, "joined, target of more than 8192 words");
}

/// All kinds that `see_answer` tells apart: 27 by each set of its four causes.
fn all_kinds() -> Vec<String> {
    let sides = ["first", "second"].iter();
    let mut kinds: Vec<String> = sides
        .flat_map(|side| (1..=7).map(move |number| format!("{side} refused {number}")))
        .collect();
    let causes = ["atoms", "operators", "words", "target"];
    kinds.extend(causes.map(|cause| format!("passed by one: {cause}")));
    for subset in 1..16 {
        let some = (0..4).filter(|cause| subset >> cause & 1 == 1);
        let some: Vec<&str> = some.map(|cause| causes[cause]).collect();
        kinds.push(format!("27: {}", some.join(", ")));
    }
    for part in ["operators", "initial atoms", "goal"] {
        let holders = ["neither", "only the first", "only the second", "both"];
        kinds.extend(holders.map(|holder| format!("{part}: {holder}")));
    }
    let others = [
        "first refused, the second otherwise",
        "second refused, 27 due",
        "joined",
        "1024 atoms",
        "1024 operators",
        "8192 words",
        "joined, the first of 8192 words",
        "joined, the second of 8192 words",
        "joined, target of the exact length",
        "joined, target of more than 8192 words",
    ];
    kinds.extend(others.map(String::from));
    kinds
}

/// Compares a pair and its mirrored pair, in targets of some lengths.
fn compare_pair(rng: &mut Rng, tally: &mut Tally, kinds: &mut Kinds, pair: Pair) {
    for pair in [pair.clone(), pair.mirrored()] {
        let target = pair.target_words(rng);
        let lent = (
            Guarded::new(&pair.left),
            Guarded::new(&pair.right),
            Guarded::new(&vec![rng.word(); target]),
        );
        let (reply, _) = compare_join(tally, lent);
        see_answer(kinds, &pair, target, reply);
    }
}

#[test]
fn joins() {
    let rng = &mut Rng::new(901);
    let mut tally = Tally::new("kb_join");
    let mut kinds = Kinds::new("kb_join");
    while tally.total() < 3 * compare::tally::INPUTS {
        let pair = join::any(rng);
        compare_pair(rng, &mut tally, &mut kinds, pair);
    }
    for _ in 0..5_000 {
        let pair = join::at_limits(rng);
        compare_pair(rng, &mut tally, &mut kinds, pair);
    }
    kinds.finish(LEAST, all_kinds());
    tally.finish(LEAST, &[0, 1, 2, 3, 4, 5, 6, 7, 27]);
}

/// The two orders in which three tasks can be joined give the same words.
#[test]
fn three_tasks() {
    let rng = &mut Rng::new(902);
    let mut tally = Tally::new("kb_join, three tasks");
    while !tally.is_full() {
        let Pair { left, right } = join::small(rng);
        let third = random::small(rng).image();
        let first_two = joined(&mut tally, &left, &right);
        let last_two = joined(&mut tally, &right, &third);
        let [one, other] = [(&first_two, &third), (&left, &last_two)]
            .map(|(left, right)| joined(&mut tally, left, right));
        assert_eq!(one, other, "{left:?} {right:?} {third:?}");
    }
    tally.finish(LEAST, &[0]);
}

/// Document 01's ring with itself.
#[test]
fn the_ring_with_itself() {
    let image = ring(3).image();
    let mut target = [7; 66];
    let reply = kulabismuth::join(&image, &image, &mut target);
    assert_eq!(reply, Reply::finding(64, 0));
    let parts: [&[u16]; 7] = [
        &[6, 6, 18, 2, 20, 2, 22, 7, 29, 7, 36, 7, 43, 7, 50, 7, 57, 7],
        &[0, 3, 4, 10],
        &[1, 0, 2, 1, 0, 2, 0, 1, 2, 2, 3, 0, 4, 0],
        &[1, 4, 2, 5, 0, 0, 0, 1, 6, 2, 7, 0, 8, 0],
        &[1, 8, 2, 9, 0, 10, 0],
        &[1, 10, 2, 11, 0, 6, 0],
        &[7, 7],
    ];
    assert_eq!(target[..], parts.concat());
    let mut target = [7; 63];
    let refused = Reply {
        number: 27,
        first: 0,
        second: 0,
    };
    assert_eq!(kulabismuth::join(&image, &image, &mut target), refused);
    assert_eq!(target, [7; 63]);
}

/// Two tasks and the joined one, by the library alone.
struct Joined {
    left: Vec<u16>,
    right: Vec<u16>,
    image: Vec<u16>,
}

impl Joined {
    fn new(tally: &mut Tally, pair: Pair) -> Joined {
        let Pair { left, right } = pair;
        let image = joined(tally, &left, &right);
        Joined { left, right, image }
    }

    /// The numbers of operators of the first task and of the joined one.
    fn operators(&self) -> (usize, usize) {
        (usize::from(self.left[1]), usize::from(self.image[1]))
    }

    /// Each task's own part of the list, run there.
    fn run_parts(&self, list: &[u16]) -> [(Reply, Vec<u8>); 2] {
        let (first, second) = model::own_parts(self.operators().0, list);
        [run(&self.left, &first), run(&self.right, &second)]
    }

    /// The list runs exactly if both parts do. The state left is that of the parts of
    /// the steps taken, one after the other.
    fn assert_run(&self, list: &[u16]) -> bool {
        let (reply, left) = run(&self.image, list);
        let parts_run = self
            .run_parts(list)
            .iter()
            .all(|(reply, _)| reply.number == 0);
        let name = || format!("{:?} {list:?}", self.image);
        assert_eq!(reply.number == 0, parts_run, "{}", name());
        let taken = &list[..reply.first as usize];
        let [first, second] = self.run_parts(taken);
        assert_eq!((first.0.number, second.0.number), (0, 0), "{}", name());
        assert_eq!(left, [first.1, second.1].concat(), "{}", name());
        parts_run
    }

    /// A step in the joined task and in the one that the number belongs to answer alike,
    /// and so do the goal tests.
    fn assert_steps(&self, list: &[u16]) -> [usize; 2] {
        let mut state = initial(&self.image);
        let (mut first, mut second) = (initial(&self.left), initial(&self.right));
        let operators = self.operators().0 as u16;
        let mut goals = [0; 2];
        for &operator in list {
            let reply = kulabismuth::task_step(&self.image, &mut state, operator);
            let own = match operator.checked_sub(operators) {
                None => kulabismuth::task_step(&self.left, &mut first, operator),
                Some(operator) => kulabismuth::task_step(&self.right, &mut second, operator),
            };
            assert_eq!(reply, own, "{:?} {list:?}", self.image);
            assert_eq!(state, [&first[..], &second].concat(), "{list:?}");
            let met = kulabismuth::task_goal(&self.image, &state);
            let first_met = kulabismuth::task_goal(&self.left, &first).first;
            let second_met = kulabismuth::task_goal(&self.right, &second).first;
            assert_eq!(met, Reply::finding(first_met.min(second_met), 0));
            goals[met.first as usize] += 1;
        }
        goals
    }
}

/// A list of numbers below the joined M. For each place some are tried in the state
/// before it; the first that is not refused is taken, else the last. Now and then a
/// number too high stands between them.
fn random_list(rng: &mut Rng, joined: &Joined) -> Vec<u16> {
    let operators = joined.operators().1;
    let mut state = initial(&joined.image);
    let mut list = Vec::new();
    let length = *rng.pick(&[0, 1, 2, 4, 10, 30]);
    while operators > 0 && list.len() < length {
        let mut number = 0;
        for _ in 0..6 {
            number = rng.below(operators) as u16;
            if kulabismuth::task_step(&joined.image, &mut state, number).number == 0 {
                break;
            }
        }
        list.push(number);
    }
    if rng.chance(30) {
        let any = rng.between(operators, 65535);
        let number = *rng.pick(&[operators, operators + 1, any, 65535]);
        list.insert(rng.below(list.len() + 1), number as u16);
    }
    list
}

#[test]
fn lists_run_as_their_parts() {
    let rng = &mut Rng::new(903);
    let mut tally = Tally::new("kb_join, for lists");
    let mut runs = [[0; 2]; 2];
    let mut goals = [0; 2];
    while !tally.is_full() {
        let joined = Joined::new(&mut tally, join::small(rng));
        for _ in 0..3 {
            let list = random_list(rng, &joined);
            let operators = joined.operators().1;
            let below = list.iter().all(|&number| usize::from(number) < operators);
            let ran = joined.assert_run(&list);
            runs[usize::from(below)][usize::from(ran)] += 1;
            let met = joined.assert_steps(&list);
            goals = [goals[0] + met[0], goals[1] + met[1]];
        }
    }
    println!("kb_join: lists with a number from M on {}", runs[0][0]);
    println!("kb_join: lists below M, refused and run {:?}", runs[1]);
    println!("kb_join: goal not met and met {goals:?}");
    assert_eq!(runs[0][1], 0);
    assert!(runs[0][0] > 5_000 && runs[1].iter().all(|&count| count > 5_000));
    assert!(goals.iter().all(|&count| count > 5_000));
    tally.finish(LEAST, &[0]);
}

/// Lists of the largest joined images, of 8,192 words.
#[test]
fn lists_of_the_largest() {
    let rng = &mut Rng::new(906);
    let mut tally = Tally::new("kb_join, for lists of the largest");
    let mut runs = [0; 2];
    for _ in 0..200 {
        let (atoms, operators) = (rng.between(500, 1024), rng.between(2, 1024));
        let joined = Joined::new(&mut tally, join::sized_pair(rng, atoms, operators, 8192));
        assert_eq!(joined.image.len(), 8192);
        let list = random_list(rng, &joined);
        runs[usize::from(joined.assert_run(&list))] += 1;
        joined.assert_steps(&list);
    }
    println!("kb_join: lists of the largest, refused and run {runs:?}");
    assert!(runs.iter().all(|&count| count > 20));
}

/// A number from the joined M on, up to the highest, is refused with 19 in the joined
/// task, and in the second with that number less the first's M.
#[test]
fn numbers_too_high() {
    let rng = &mut Rng::new(904);
    let mut tally = Tally::new("kb_join, for numbers too high");
    let pair = join::sized_pair(rng, 9, 7, 150);
    let joined = Joined::new(&mut tally, pair);
    let operators = joined.operators().1 as u16;
    let list: Vec<u16> = (operators..=65535).collect();
    joined.assert_steps(&list);
    for &number in &list {
        assert!(!joined.assert_run(&[number]));
    }
}

/// The library's finding.
fn found(image: &[u16], n: u16) -> Vec<u16> {
    let (mut rows, mut work) = (vec![1; 30_000], vec![1; 30_000]);
    let mut marks = vec![1; marks_of(image)];
    let reply = kulabismuth::synthesize(image, n, 65535, &mut rows, &mut work, &mut marks);
    assert_eq!(reply.number, 0, "{image:?}");
    rows.truncate(3 * reply.first as usize);
    rows
}

/// Compares kb_check with a mark buffer of so many bytes.
fn compare_check(tally: &mut Tally, image: &[u16], rows: &[u16], marks: usize) -> Reply {
    let lent = (
        Guarded::new(image),
        Guarded::new(rows),
        Guarded::new(&vec![7; marks]),
    );
    calls::check(tally, lent)
}

/// The bytes of marks that 13 asks for.
fn marks_of(image: &[u16]) -> usize {
    mark_bytes(usize::from(image[0]))
}

/// The union of a set for each task: accepted if each is, with marks as 13 asks. Refused
/// with 10 or 11, it names the first's place, or the second's behind all of the first.
/// Document 02 §6 does not say when a union is refused. For 10 it is plain. A clause that
/// is not kept in its task is not kept in the joined one either: the other set shares no
/// atom with it, and is true initially, else 10 had come, so it makes no closure
/// contradictory. The lowest places (document 02 §2) then are the part's own.
fn assert_union(tally: &mut Tally, joined: &Joined, sets: [&[u16]; 2]) -> Reply {
    let Joined { left, right, image } = joined;
    let both = model::union(usize::from(left[0]), sets[0], sets[1]);
    let bytes = marks_of(image);
    let short = compare_check(tally, image, &both, bytes - 1);
    assert_eq!(short.number, 13, "{image:?} {both:?}");
    let given = compare_check(tally, image, &both, bytes);
    let first = kulabismuth::check(left, sets[0], &mut vec![7; marks_of(left)]);
    let mut second = kulabismuth::check(right, sets[1], &mut vec![7; marks_of(right)]);
    if second.number != 0 {
        second.first += sets[0].len() as u64 / 3;
    }
    if second.number == 11 {
        second.second += u64::from(left[1]);
    }
    let expected = match (first.number, second.number) {
        (0, _) | (11, 10) => second,
        _ => first,
    };
    assert_eq!(given, expected, "{image:?} {both:?}");
    given
}

/// A set with a clause more or less, or a literal.
fn changed(rng: &mut Rng, image: &[u16], set: &[u16]) -> Vec<u16> {
    let mut rows = clauses::rows(set);
    clauses::mutate(rng, usize::from(image[0]), &mut rows);
    clauses::words(&rows)
}

#[test]
fn unions_are_accepted() {
    let rng = &mut Rng::new(905);
    let mut joins = Tally::new("kb_join, for unions");
    let mut checks = Tally::new("kb_check, unions");
    let (mut accepted, mut number) = (0, 0);
    while !checks.is_full() {
        let joined = Joined::new(&mut joins, join::small(rng));
        let Joined { left, right, .. } = &joined;
        let sets = [
            found(left, 1 + number % 3),
            found(right, 1 + number / 3 % 3),
        ];
        let reply = assert_union(&mut checks, &joined, [&sets[0], &sets[1]]);
        assert_eq!(reply, Reply::finding(0, 0));
        accepted += 1;
        let other = [changed(rng, left, &sets[0]), changed(rng, right, &sets[1])];
        for (first, second) in [(0, 1), (1, 0), (1, 1)] {
            let first = [&sets[0], &other[0]][first];
            let second = [&sets[1], &other[1]][second];
            assert_union(&mut checks, &joined, [first, second]);
        }
        number += 1;
    }
    println!("kb_join: {accepted} unions of found sets accepted");
    assert!(accepted >= 2_000);
    checks.finish(LEAST, &[0, 10, 11, 13]);
}

/// Question 8's limit: 4,950 and 5,050 clauses are accepted together, a clause more is
/// refused with 8.
#[test]
fn unions_at_the_limit() {
    let (mut joins, mut checks) = (Tally::new("kb_join"), Tally::new("kb_check"));
    let mut with_atom = ring(100);
    with_atom.initial.push(100);
    with_atom.atoms += 1;
    let mut check = |left: Vec<u16>, right: Vec<u16>| {
        let sets = [found(&left, 2), found(&right, 2)];
        let joined = Joined::new(&mut joins, Pair { left, right });
        let both = model::union(usize::from(joined.left[0]), &sets[0], &sets[1]);
        let image = &joined.image;
        let reply = compare_check(&mut checks, image, &both, marks_of(image));
        (both.len() / 3, reply.number)
    };
    let larger = ring(101).image();
    assert_eq!(check(ring(100).image(), larger.clone()), (10_000, 0));
    assert_eq!(check(larger.clone(), with_atom.image()), (10_001, 8));
}
