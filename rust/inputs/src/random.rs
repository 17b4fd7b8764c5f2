//! Random tasks.

use crate::add_delete;
use crate::structured::{blocks, briefcase, changer, gripper, ring, transport};
use crate::task::{no, yes, OperatorSpec, RowSpec, TaskSpec};
use crate::Rng;

/// Bounds for a random task: ranges for atoms and operators, most words of a
/// precondition, rows of an operator, conditions of a row.
#[derive(Clone, Copy, Debug)]
pub struct Shape {
    pub atoms: (usize, usize),
    pub operators: (usize, usize),
    pub precondition: usize,
    pub rows: usize,
    pub conditions: usize,
}

pub const SMALL: Shape = Shape {
    atoms: (1, 6),
    operators: (0, 5),
    precondition: 2,
    rows: 4,
    conditions: 2,
};

/// Few atoms and many conditions, so that rows depend on each other.
pub const DENSE: Shape = Shape {
    atoms: (2, 5),
    operators: (1, 4),
    precondition: 2,
    rows: 6,
    conditions: 2,
};

/// So few atoms that the rows of an operator are mostly about the same ones.
pub const ENTANGLED: Shape = Shape {
    atoms: (2, 3),
    operators: (1, 2),
    precondition: 1,
    rows: 5,
    conditions: 2,
};

pub const MEDIUM: Shape = Shape {
    atoms: (5, 40),
    operators: (0, 20),
    precondition: 3,
    rows: 6,
    conditions: 3,
};

pub const LARGE: Shape = Shape {
    atoms: (50, 1024),
    operators: (20, 200),
    precondition: 4,
    rows: 6,
    conditions: 3,
};

/// Any valid task: random of several shapes, structured, now and then large.
pub fn any(rng: &mut Rng) -> TaskSpec {
    match rng.below(100) {
        0..=54 => task(rng, &SMALL),
        55..=69 => task(rng, &MEDIUM),
        70..=96 => structured(rng),
        97 => largest(rng),
        98 => edge(rng),
        _ => task(rng, &LARGE),
    }
}

/// A valid task small enough for synthesis to take little time.
pub fn small(rng: &mut Rng) -> TaskSpec {
    match rng.below(10) {
        0..=2 => task(rng, &SMALL),
        3..=4 => task(rng, &DENSE),
        5 => task(rng, &ENTANGLED),
        6 => add_delete::task(rng),
        _ => structured(rng),
    }
}

/// A task with the most or fewest atoms and operators.
pub fn edge(rng: &mut Rng) -> TaskSpec {
    let atoms = *rng.pick(&[1, 1023, 1024]);
    let operators = *rng.pick(&[0, 1023, 1024]);
    let empty = OperatorSpec::default();
    let mut task = TaskSpec {
        atoms,
        initial: vec![atoms - 1],
        goal: vec![no(atoms - 1)],
        operators: vec![empty; operators],
    };
    if let Some(last) = task.operators.last_mut() {
        last.rows = vec![RowSpec::new(no(atoms - 1), &[])];
    }
    task
}

/// A structured task with few objects.
pub fn structured(rng: &mut Rng) -> TaskSpec {
    let mut few = |most| rng.between(1, most) as u16;
    match few(6) {
        1 => ring(few(8)),
        2 => gripper(few(3), few(3), few(2)),
        3 => blocks(few(3)),
        4 => briefcase(few(3), few(3)),
        5 => changer(few(3), few(3)),
        _ => transport(few(2), few(2), few(3)),
    }
}

/// A random task within the shape.
pub fn task(rng: &mut Rng, shape: &Shape) -> TaskSpec {
    let atoms = rng.between(shape.atoms.0, shape.atoms.1);
    let operators = rng.between(shape.operators.0, shape.operators.1);
    let percent = *rng.pick(&[10, 30, 50, 90]);
    TaskSpec {
        atoms: atoms as u16,
        initial: (0..atoms as u16).filter(|_| rng.chance(percent)).collect(),
        goal: literal_list(rng, atoms, 3),
        operators: (0..operators)
            .map(|_| operator(rng, atoms, shape))
            .collect(),
    }
}

/// A random literal list of at most `most` literals.
pub fn literal_list(rng: &mut Rng, atoms: usize, most: usize) -> Vec<u16> {
    let length = rng.between(0, most);
    let mut list: Vec<u16> = (0..length).map(|_| literal(rng, atoms)).collect();
    list.sort_unstable();
    list.dedup_by_key(|literal| *literal / 2);
    list
}

pub fn literal(rng: &mut Rng, atoms: usize) -> u16 {
    rng.below(2 * atoms) as u16
}

/// A random operator; often one that moves a token from one atom to another.
pub fn operator(rng: &mut Rng, atoms: usize, shape: &Shape) -> OperatorSpec {
    if rng.chance(40) {
        let mut atom = || rng.below(atoms) as u16;
        let (from, to) = (atom(), atom());
        return OperatorSpec::strips(&[yes(from)], &[no(from), yes(to)]);
    }
    let rows = rng.between(0, shape.rows);
    OperatorSpec {
        precondition: literal_list(rng, atoms, shape.precondition),
        rows: (0..rows)
            .map(|_| row(rng, atoms, shape.conditions))
            .collect(),
    }
}

fn row(rng: &mut Rng, atoms: usize, conditions: usize) -> RowSpec {
    let most = if rng.chance(50) { 0 } else { conditions };
    RowSpec {
        effect: literal(rng, atoms),
        conditions: literal_list(rng, atoms, most),
    }
}

/// A task whose image has exactly 8,192 words.
pub fn largest(rng: &mut Rng) -> TaskSpec {
    let mut task = self::task(rng, &LARGE);
    task.operators.clear();
    let mut length = task.image().len();
    loop {
        let next = operator(rng, usize::from(task.atoms), &LARGE);
        let grown = length + 2 + next.block().len();
        if grown > 8192 - 8 || task.operators.len() == 1023 {
            break;
        }
        task.operators.push(next);
        length = grown;
    }
    task.operators.push(filling(rng, &task, 8192 - length - 2));
    task
}

/// An operator without precondition whose block has exactly `words` words.
fn filling(rng: &mut Rng, task: &TaskSpec, words: usize) -> OperatorSpec {
    let atoms = usize::from(task.atoms);
    let mut rows: Vec<RowSpec> = (0..(words - 2) / 2)
        .map(|_| RowSpec::new(literal(rng, atoms), &[]))
        .collect();
    if words % 2 == 1 {
        rows[0].conditions = vec![literal(rng, atoms)];
    }
    OperatorSpec {
        precondition: Vec::new(),
        rows,
    }
}
