//! Pairs of task images to be joined (document 02 §6), and lengths of the target.

use crate::damage;
use crate::random::{self, literal};
use crate::task::{OperatorSpec, RowSpec, TaskSpec};
use crate::Rng;

/// The first and the second image.
#[derive(Clone, PartialEq, Eq, Debug)]
pub struct Pair {
    pub left: Vec<u16>,
    pub right: Vec<u16>,
}

impl Pair {
    fn of(left: &TaskSpec, right: &TaskSpec) -> Pair {
        Pair {
            left: left.image(),
            right: right.image(),
        }
    }

    /// The pair with first and second exchanged.
    pub fn mirrored(self) -> Pair {
        Pair {
            left: self.right,
            right: self.left,
        }
    }

    /// The words of the joined image, if both images are right.
    pub fn joined_words(&self) -> usize {
        (self.left.len() + self.right.len()).saturating_sub(6)
    }

    /// A length for the target: often exactly the joined image's, or one too short.
    pub fn target_words(&self, rng: &mut Rng) -> usize {
        let needed = self.joined_words();
        match rng.below(12) {
            0 => 0,
            1 => needed.saturating_sub(1),
            2 => rng.below(needed + 1),
            3 => needed + rng.between(1, 20),
            4 => *rng.pick(&[8191, 8192, 8193]),
            _ => needed,
        }
    }
}

/// Any pair: of two tasks or at the limits, with neither, one or both images damaged.
pub fn any(rng: &mut Rng) -> Pair {
    let mut pair = match rng.below(20) {
        0..=1 => at_limits(rng),
        2 => beside_largest(rng),
        _ => Pair::of(&task(rng), &task(rng)),
    };
    let damaged = rng.below(10);
    if matches!(damaged, 0..=1 | 4) {
        damage::task_image(rng, &mut pair.left);
    }
    if matches!(damaged, 2..=4) {
        damage::task_image(rng, &mut pair.right);
    }
    pair
}

/// Any valid task; more often than else without initial atoms, goal or operators.
fn task(rng: &mut Rng) -> TaskSpec {
    let mut task = random::any(rng);
    match rng.below(20) {
        0 => task.initial.clear(),
        1 => task.goal.clear(),
        2 => task.operators.clear(),
        3 => (task.initial, task.goal) = (Vec::new(), Vec::new()),
        _ => {}
    }
    task
}

/// A pair of valid tasks that are small, so that synthesis takes little time.
pub fn small(rng: &mut Rng) -> Pair {
    Pair::of(&random::small(rng), &random::small(rng))
}

/// A pair of valid images. Each of the joined numbers of atoms, operators and words is
/// small, at its limit or one above.
pub fn at_limits(rng: &mut Rng) -> Pair {
    let atoms = at_limit(rng, 1024).unwrap_or(rng.between(2, 40));
    let operators = at_limit(rng, 1024).unwrap_or(rng.between(0, 12));
    let least = least_words(operators);
    let words = at_limit(rng, 8192).unwrap_or(least + rng.between(0, 60));
    sized_pair(rng, atoms, operators, words)
}

/// The limit or one above it, in half of the cases.
fn at_limit(rng: &mut Rng, limit: usize) -> Option<usize> {
    rng.chance(50).then(|| limit + rng.below(2))
}

/// A pair whose joined image has so many atoms (at least 2), operators and words. Without
/// operators there may be fewer words, as the lists have room only for the atoms.
pub fn sized_pair(rng: &mut Rng, atoms: usize, operators: usize, words: usize) -> Pair {
    let left_atoms = rng.between(1, atoms - 1);
    let right_atoms = atoms - left_atoms;
    let left_operators = rng.between(operators.saturating_sub(1024), operators.min(1024));
    let right_operators = operators - left_operators;
    let left_most = most_room(left_atoms, left_operators);
    let right_most = most_room(right_atoms, right_operators);
    let room = (words - least_words(operators)).min(left_most + right_most);
    let left_room = rng.between(room.saturating_sub(right_most), room.min(left_most));
    Pair::of(
        &sized(rng, left_atoms, left_operators, left_room),
        &sized(rng, right_atoms, right_operators, room - left_room),
    )
}

/// The words of an image with so many operators in which all lists are empty.
pub fn least_words(operators: usize) -> usize {
    6 + 4 * operators
}

/// The most words that can be added to the least.
fn most_room(atoms: usize, operators: usize) -> usize {
    match operators {
        0 => 2 * atoms,
        _ => 8192 - least_words(operators),
    }
}

/// A task of exactly so many atoms and operators whose image has `room` words more than
/// the least. Without operators that is at most twice the number of atoms.
pub fn sized(rng: &mut Rng, atoms: usize, operators: usize, room: usize) -> TaskSpec {
    let listed = match operators {
        0 => room,
        _ => rng.between(0, room.min(2 * atoms)),
    };
    let initial = rng.between(listed.saturating_sub(atoms), listed.min(atoms));
    let mut task = TaskSpec {
        atoms: atoms as u16,
        initial: some_atoms(rng, atoms, initial),
        goal: some_literals(rng, atoms, listed - initial),
        operators: vec![OperatorSpec::default(); operators],
    };
    fill(rng, &mut task, room - listed);
    task
}

/// So many of the atoms, ascending.
fn some_atoms(rng: &mut Rng, atoms: usize, count: usize) -> Vec<u16> {
    let mut chosen: Vec<u16> = (0..atoms as u16).collect();
    rng.shuffle(&mut chosen);
    chosen.truncate(count);
    chosen.sort_unstable();
    chosen
}

/// Literals of so many of the atoms, ascending.
pub fn some_literals(rng: &mut Rng, atoms: usize, count: usize) -> Vec<u16> {
    let chosen = some_atoms(rng, atoms, count).into_iter();
    chosen.map(|atom| 2 * atom + rng.below(2) as u16).collect()
}

/// Adds exactly so many words to the operators.
fn fill(rng: &mut Rng, task: &mut TaskSpec, words: usize) {
    let atoms = usize::from(task.atoms);
    let count = task.operators.len();
    if words % 2 == 1 {
        let operator = &mut task.operators[rng.below(count)];
        operator.precondition = vec![literal(rng, atoms)];
    }
    let mut pairs = words / 2;
    while pairs > 0 {
        let with_conditions = pairs > 1 && atoms > 1 && rng.chance(40);
        let conditions = if with_conditions {
            two_literals(rng, atoms).to_vec()
        } else {
            Vec::new()
        };
        pairs -= 1 + usize::from(with_conditions);
        let effect = literal(rng, atoms);
        let rows = &mut task.operators[rng.below(count)].rows;
        rows.push(RowSpec { effect, conditions });
    }
}

/// Literals of two of the atoms, ascending.
fn two_literals(rng: &mut Rng, atoms: usize) -> [u16; 2] {
    let low = rng.below(atoms - 1);
    let high = rng.between(low + 1, atoms - 1);
    [low, high].map(|atom| (2 * atom + rng.below(2)) as u16)
}

/// An image of 8,192 words and one of 6 or 7: the joined one has 8,192 or 8,193.
fn beside_largest(rng: &mut Rng) -> Pair {
    let short = TaskSpec {
        atoms: 1,
        goal: vec![0; rng.below(2)],
        ..TaskSpec::default()
    };
    let pair = Pair::of(&random::largest(rng), &short);
    if rng.chance(50) {
        pair
    } else {
        pair.mirrored()
    }
}
