//! Two tasks joined (document 02 §6): images written by hand, the order of the
//! questions, lists of small tasks, and unions of accepted sets.

mod common;

use common::*;
use inputs::join::{any, sized_pair, small, Pair};
use inputs::random::{self, Shape};
use inputs::task::{OperatorSpec, TaskSpec};
use inputs::{clauses, Rng};
use reference::join::{join, own_parts, union};
use reference::{checker, state, task, Answer};

/// Two atoms, the second true initially; the goal is the first true and the second
/// false. The operator needs the second; it adds the first if that is false and the
/// second true, and deletes the second.
const MOVE: [u16; 20] = [2, 1, 8, 1, 9, 2, 11, 9, 1, 0, 3, 1, 2, 2, 0, 2, 1, 2, 3, 0];

/// One atom, all lists empty, no operator.
const EMPTY: [u16; 6] = [1, 0, 6, 0, 6, 0];

/// The joined image in a target that is longer; words after it stay.
fn joined(left: &[u16], right: &[u16]) -> Answer<Vec<u16>> {
    let mut target = vec![7; 8200];
    let length = join(left, right, &mut target)?;
    assert!(target[length..].iter().all(|&word| word == 7));
    assert_eq!(length, left.len() + right.len() - 6);
    target.truncate(length);
    Ok(target)
}

#[test]
fn ring_with_itself() {
    let parts: [&[u16]; 9] = [
        &[6, 6, 18, 2, 20, 2, 22, 7, 29, 7, 36, 7, 43, 7, 50, 7, 57, 7],
        &[0, 3],
        &[4, 10],
        &[1, 0, 2, 1, 0, 2, 0],
        &[1, 2, 2, 3, 0, 4, 0],
        &[1, 4, 2, 5, 0, 0, 0],
        &[1, 6, 2, 7, 0, 8, 0],
        &[1, 8, 2, 9, 0, 10, 0],
        &[1, 10, 2, 11, 0, 6, 0],
    ];
    assert_eq!(joined(&RING, &RING), Ok(parts.concat()));
}

#[test]
fn ring_with_another() {
    let parts: [&[u16]; 7] = [
        &[5, 4, 14, 2, 16, 3, 19, 7, 26, 7, 33, 7, 40, 9],
        &[0, 4],
        &[4, 6, 9],
        &[1, 0, 2, 1, 0, 2, 0],
        &[1, 2, 2, 3, 0, 4, 0],
        &[1, 4, 2, 5, 0, 0, 0],
        &[1, 8, 2, 6, 2, 7, 8, 9, 0],
    ];
    assert_eq!(joined(&RING, &MOVE), Ok(parts.concat()));
    let parts: [&[u16]; 7] = [
        &[5, 4, 14, 2, 16, 3, 19, 9, 28, 7, 35, 7, 42, 7],
        &[1, 2],
        &[0, 3, 8],
        &[1, 2, 2, 0, 2, 1, 2, 3, 0],
        &[1, 4, 2, 5, 0, 6, 0],
        &[1, 6, 2, 7, 0, 8, 0],
        &[1, 8, 2, 9, 0, 4, 0],
    ];
    assert_eq!(joined(&MOVE, &RING), Ok(parts.concat()));
}

#[test]
fn without_operators() {
    assert_eq!(joined(&EMPTY, &EMPTY), Ok(vec![2, 0, 6, 0, 6, 0]));
    let listed = [1, 0, 6, 1, 7, 1, 0, 1];
    assert_eq!(joined(&EMPTY, &listed), Ok(vec![2, 0, 6, 1, 7, 1, 1, 3]));
    assert_eq!(
        joined(&listed, &listed),
        Ok(vec![2, 0, 6, 2, 8, 2, 0, 1, 1, 3])
    );
    let ring_first = [&[4], &RING[1..]].concat();
    assert_eq!(joined(&RING, &EMPTY), Ok(ring_first));
    let ring_second: [&[u16]; 3] = [
        &[4, 3, 12, 1, 13, 1, 14, 7, 21, 7, 28, 7, 1, 6],
        &[1, 2, 2, 3, 0, 4, 0, 1, 4, 2, 5, 0, 6, 0],
        &[1, 6, 2, 7, 0, 2, 0],
    ];
    assert_eq!(joined(&EMPTY, &RING), Ok(ring_second.concat()));
}

/// The joined image reads as the joined task: compared part by part with lists that
/// `inputs` joins.
#[test]
fn parts_of_random_tasks() {
    let rng = &mut Rng::new(601);
    for _ in 0..500 {
        let tasks = [0, 1].map(|_| random::task(rng, &random::MEDIUM));
        let mut expected = tasks[0].clone();
        append(&mut expected, &tasks[1]);
        let images = tasks.map(|task| task.image());
        assert_eq!(joined(&images[0], &images[1]), Ok(expected.image()));
    }
}

/// Appends a task to a task, list by list.
fn append(task: &mut TaskSpec, other: &TaskSpec) {
    let atoms = task.atoms;
    let shift = |literals: &mut Vec<u16>| literals.iter_mut().for_each(|word| *word += 2 * atoms);
    let mut other = other.clone();
    shift(&mut other.goal);
    for operator in &mut other.operators {
        shift(&mut operator.precondition);
        for row in &mut operator.rows {
            row.effect += 2 * atoms;
            shift(&mut row.conditions);
        }
    }
    task.atoms += other.atoms;
    let initial = other.initial.iter().map(|atom| atom + atoms);
    task.initial.extend(initial);
    task.goal.append(&mut other.goal);
    task.operators.append(&mut other.operators);
}

/// Images refused with 1 to 7, and the operator named.
fn refused_images() -> [(Vec<u16>, u32, u64); 8] {
    [
        (vec![1, 0, 6, 0, 6], 1, 0),
        (vec![0, 0, 6, 0, 6, 0], 2, 0),
        (vec![1, 0, 6, 65530, 0, 6], 3, 0),
        (vec![2, 0, 6, 2, 8, 0, 1, 0], 4, 0),
        (vec![2, 0, 6, 0, 6, 2, 2, 3], 5, 0),
        (vec![1, 1, 8, 0, 8, 0, 8, 0], 6, 0),
        (vec![1, 1, 8, 0, 8, 0, 8, 4, 0, 1, 2, 0], 7, 0),
        (vec![1, 2, 10, 0, 10, 0, 10, 2, 12, 3, 0, 0, 1, 2, 0], 7, 1),
    ]
}

/// The first's refusal comes before the second's, and both before 27, whatever the
/// target. A place is the operator's number in its own task.
#[test]
fn refusals_of_the_images() {
    let widest = TaskSpec {
        atoms: 1024,
        ..TaskSpec::default()
    };
    for (image, number, place) in refused_images() {
        for words in [0, 100] {
            let mut target = vec![7; words];
            for (other, ..) in refused_images() {
                let answer = join(&image, &other, &mut target);
                assert_eq!(answer, refusal(number, place, 0));
            }
            for other in [RING.to_vec(), widest.image()] {
                let answer = join(&image, &other, &mut target);
                assert_eq!(answer, refusal(number, place, 0));
                let answer = join(&other, &image, &mut target);
                assert_eq!(answer, refusal(number, place, 0));
            }
            assert!(target.iter().all(|&word| word == 7));
        }
    }
}

#[test]
fn the_target() {
    for words in 0..64 {
        let mut target = vec![7; words];
        assert_eq!(join(&RING, &RING, &mut target), refusal(27, 0, 0));
        assert!(target.iter().all(|&word| word == 7));
    }
    assert_eq!(join(&RING, &RING, &mut [7; 64]), Ok(64));
    let mut target = [7; 66];
    assert_eq!(join(&RING, &RING, &mut target), Ok(64));
    assert_eq!(target[63..], [0, 7, 7]);
}

#[test]
fn limits() {
    let sized = |atoms, operators| TaskSpec {
        atoms,
        operators: vec![OperatorSpec::default(); operators],
        ..TaskSpec::default()
    };
    let length = |left: TaskSpec, right: TaskSpec| {
        let words = join(&left.image(), &right.image(), &mut vec![7; 20_000]);
        words.map_err(|refusal| refusal.number)
    };
    assert_eq!(length(sized(1023, 0), sized(1, 0)), Ok(6));
    assert_eq!(length(sized(1, 0), sized(1023, 0)), Ok(6));
    assert_eq!(length(sized(1023, 0), sized(2, 0)), Err(27));
    assert_eq!(length(sized(1, 0), sized(1024, 0)), Err(27));
    assert_eq!(length(sized(1, 1024), sized(1, 0)), Ok(4102));
    assert_eq!(length(sized(1, 0), sized(1, 1024)), Ok(4102));
    assert_eq!(length(sized(1, 500), sized(1, 524)), Ok(4102));
    assert_eq!(length(sized(1, 1024), sized(1, 1)), Err(27));
    assert_eq!(length(sized(1, 501), sized(1, 524)), Err(27));
    let rng = &mut Rng::new(602);
    for _ in 0..50 {
        for (words, expected) in [(8192, Ok(8192)), (8193, refusal(27, 0, 0))] {
            let Pair { left, right } = sized_pair(rng, 1024, 1024, words);
            assert_eq!(join(&left, &right, &mut vec![7; 8200]), expected);
        }
    }
}

/// The kinds of pairs that `inputs` makes: whatever is joined reads as a task.
#[test]
fn any_pair() {
    let rng = &mut Rng::new(603);
    let mut numbers = [0; 28];
    for _ in 0..2_000 {
        let Pair { left, right } = any(rng);
        match joined(&left, &right) {
            Ok(image) => assert!(task::read(&image).is_ok(), "{image:?}"),
            Err(refusal) => numbers[refusal.number as usize] += 1,
        }
    }
    assert!([1, 2, 3, 4, 5, 6, 7, 27].iter().all(|&n| numbers[n] > 5));
}

/// The state after the list from the initial one, if the list runs.
fn state_after(image: &[u16], list: &[u16]) -> Option<Vec<u8>> {
    let mut state = vec![7; usize::from(image[0])];
    state::initial(image, &mut state).expect("a right image");
    let answer = state::run(image, &mut state, list);
    answer.is_ok().then_some(state)
}

/// All lists of up to three numbers below `operators`.
fn lists(operators: u16) -> Vec<Vec<u16>> {
    let mut all = vec![Vec::new()];
    let mut longest = all.clone();
    for _ in 0..3 {
        let longer = |list: &Vec<u16>| {
            let list = list.clone();
            (0..operators).map(move |number| [&list[..], &[number]].concat())
        };
        longest = longest.iter().flat_map(longer).collect();
        all.extend(longest.iter().cloned());
    }
    all
}

/// A list runs exactly if each task's own part runs there; then the states stand one
/// after the other, and the goal is met exactly if both are.
fn assert_lists(left: &[u16], right: &[u16]) {
    let image = joined(left, right).expect("within the limits");
    for list in lists(image[1]) {
        let (first, second) = own_parts(usize::from(left[1]), &list);
        let states = state_after(left, &first).zip(state_after(right, &second));
        let goals_met = states.as_ref().map(|(first, second)| {
            let met = [state::goal(left, first), state::goal(right, second)];
            met == [Ok(true); 2]
        });
        let state = state_after(&image, &list);
        let is_met = |state: &Vec<u8>| state::goal(&image, state) == Ok(true);
        assert_eq!(state.as_ref().map(is_met), goals_met, "{image:?} {list:?}");
        let both = states.map(|(first, second)| [first, second].concat());
        assert_eq!(state, both, "{image:?} {list:?}");
    }
}

const FEW: Shape = Shape {
    atoms: (1, 4),
    operators: (0, 2),
    precondition: 1,
    rows: 4,
    conditions: 2,
};

#[test]
fn all_short_lists() {
    let rng = &mut Rng::new(604);
    for _ in 0..2_000 {
        let [left, right] = [0, 1].map(|_| random::task(rng, &FEW).image());
        assert_lists(&left, &right);
    }
    assert_lists(&RING, &RING);
    assert_lists(&RING, &MOVE);
    assert_lists(&MOVE, &RING);
}

/// All tasks of document 02 §13 with one atom and one operator, and with two atoms and
/// one operator, joined.
#[test]
fn all_short_lists_of_all_small_tasks() {
    for first in 0..inputs::small::count(1, 1) {
        let left = inputs::small::small(1, 1, first).image();
        for second in 0..inputs::small::count(2, 1) {
            let right = inputs::small::small(2, 1, second).image();
            assert_lists(&left, &right);
            assert_lists(&right, &left);
        }
    }
}

#[test]
fn parts_of_a_list() {
    let list = [0, 3, 65535, 2, 4, 1];
    assert_eq!(own_parts(3, &list), (vec![0, 2, 1], vec![0, 65532, 1]));
    assert_eq!(own_parts(0, &list), (vec![], list.to_vec()));
    assert_eq!(own_parts(3, &[]), (vec![], vec![]));
}

#[test]
fn union_of_the_rings_clauses() {
    let both = union(3, &RING_CLAUSES, &RING_CLAUSES);
    let second = [6, 8, 10, 7, 9, F, 7, 11, F, 9, 11, F];
    assert_eq!(both, [RING_CLAUSES, second].concat());
    let image = joined(&RING, &RING).expect("within the limits");
    assert_eq!(checker::check(&image, &both, &mut [7; 2]), Ok(()));
    assert_eq!(
        checker::check(&image, &both, &mut [7; 1]),
        refusal(13, 0, 0)
    );
    assert_eq!(checker::check(&image, &second, &mut [7; 2]), Ok(()));
    assert_eq!(check(&image, &[1, 3, F, 7, 9, F]), refusal(11, 0, 2));
}

/// The rows that synthesis finds.
fn found(image: &[u16], n: u16) -> Vec<u16> {
    let (answer, mut rows) = synthesis(image, n, 65535, 30_000);
    rows.truncate(3 * answer.expect("finished").rows);
    rows
}

/// The union is accepted exactly if each set is, for sets found and for such changed a
/// little.
#[test]
fn unions() {
    let rng = &mut Rng::new(605);
    let mut accepted = [0; 2];
    for number in 0..600 {
        let Pair { left, right } = small(rng);
        let image = joined(&left, &right).expect("within the limits");
        let atoms = usize::from(left[0]);
        let mut sets = [
            found(&left, 1 + number % 3),
            found(&right, 1 + number / 3 % 3),
        ];
        let both = union(atoms, &sets[0], &sets[1]);
        assert_eq!(check(&image, &both), Ok(()), "{image:?} {both:?}");
        for (set, task) in sets.iter_mut().zip([&left, &right]) {
            if rng.chance(50) {
                let mut rows = clauses::rows(set);
                clauses::mutate(rng, usize::from(task[0]), &mut rows);
                *set = clauses::words(&rows);
            }
        }
        let each = check(&left, &sets[0]).is_ok() && check(&right, &sets[1]).is_ok();
        let both = union(atoms, &sets[0], &sets[1]);
        let answer = check(&image, &both);
        assert_eq!(answer.is_ok(), each, "{image:?} {both:?} {answer:?}");
        accepted[usize::from(each)] += 1;
    }
    assert!(accepted.iter().all(|&count| count > 50), "{accepted:?}");
}

/// Three tasks give the same image in whichever order the two joins are made.
#[test]
fn three_tasks() {
    let rng = &mut Rng::new(606);
    for _ in 0..500 {
        let Pair { left, right } = small(rng);
        let third = random::small(rng).image();
        let first_two = joined(&left, &right).expect("within the limits");
        let last_two = joined(&right, &third).expect("within the limits");
        assert_eq!(joined(&first_two, &third), joined(&left, &last_two));
    }
}
