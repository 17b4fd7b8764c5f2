//! Sets of clauses as rows, valid and damaged.

use crate::random::{literal, literal_list};
use crate::task::{OperatorSpec, RowSpec, TaskSpec};
use crate::Rng;

pub const FILL: u16 = u16::MAX;

/// A row: up to three literals, ascending, filled with 65535.
pub type Row = [u16; 3];

/// The row of 1 to 3 literals in any order; an atom's second literal is left out.
pub fn row(literals: &[u16]) -> Row {
    let mut list = literals.to_vec();
    list.sort_unstable();
    list.dedup_by_key(|literal| *literal / 2);
    let mut row = [FILL; 3];
    row[..list.len()].copy_from_slice(&list);
    row
}

/// The literals of a row.
pub fn literals(row: &Row) -> Vec<u16> {
    let list = row.iter().copied();
    list.filter(|&word| word != FILL).collect()
}

/// The words of a set of rows, ascending and each once.
pub fn words(rows: &[Row]) -> Vec<u16> {
    let mut rows = rows.to_vec();
    rows.sort_unstable();
    rows.dedup();
    rows.concat()
}

/// The rows of clause words.
pub fn rows(words: &[u16]) -> Vec<Row> {
    let rows = words.chunks_exact(3);
    rows.map(|row| [row[0], row[1], row[2]]).collect()
}

pub fn random_row(rng: &mut Rng, atoms: usize) -> Row {
    let size = *rng.pick(&[1, 2, 2, 3, 3]);
    let list: Vec<u16> = (0..size).map(|_| literal(rng, atoms)).collect();
    row(&list)
}

/// A random row with a literal that is true in the state.
pub fn true_row(rng: &mut Rng, state: &[u8]) -> Row {
    let mut list = literals(&random_row(rng, state.len()));
    let place = rng.below(list.len());
    let atom = list[place] / 2;
    list[place] = 2 * atom + u16::from(state[usize::from(atom)] == 0);
    row(&list)
}

/// Up to `most` random rows, all true in the state.
pub fn true_set(rng: &mut Rng, state: &[u8], most: usize) -> Vec<Row> {
    let count = rng.between(0, most);
    (0..count).map(|_| true_row(rng, state)).collect()
}

/// Up to `most` random rows.
pub fn random_set(rng: &mut Rng, atoms: usize, most: usize) -> Vec<Row> {
    let count = rng.between(0, most);
    (0..count).map(|_| random_row(rng, atoms)).collect()
}

/// A task of one operator most of whose rows, with conditions on few atoms, make
/// a literal of a clause false; and that clause.
pub fn falsifying_task(rng: &mut Rng) -> (TaskSpec, Row) {
    let atoms = rng.between(2, 4);
    let clause = random_row(rng, atoms);
    let literals = literals(&clause);
    let mut row = || {
        let falsifies = rng.chance(80);
        let any = literal(rng, atoms);
        RowSpec {
            effect: if falsifies {
                rng.pick(&literals) ^ 1
            } else {
                any
            },
            conditions: literal_list(rng, atoms, 2),
        }
    };
    let rows = vec![row(), row(), row()];
    let task = TaskSpec {
        atoms: atoms as u16,
        operators: vec![OperatorSpec {
            precondition: literal_list(rng, atoms, 1),
            rows,
        }],
        ..TaskSpec::default()
    };
    (task, clause)
}

/// Changes a set a little: a row less or more, a literal less, more or turned.
pub fn mutate(rng: &mut Rng, atoms: usize, rows: &mut Vec<Row>) {
    let Some(place) = rng.place(rows.len()) else {
        rows.push(random_row(rng, atoms));
        return;
    };
    let mut list = literals(&rows[place]);
    match rng.below(5) {
        0 => {
            rows.remove(place);
            return;
        }
        1 => {
            rows.push(random_row(rng, atoms));
            return;
        }
        2 if list.len() > 1 => {
            list.remove(rng.below(list.len()));
        }
        3 if list.len() < 3 => list.push(literal(rng, atoms)),
        _ => {
            let turned = rng.below(list.len());
            list[turned] ^= 1;
        }
    }
    rows[place] = row(&list);
}

/// Damages clause words: the order, a literal, the fill, the length.
pub fn damage(rng: &mut Rng, atoms: usize, words: &mut Vec<u16>) {
    let rows = words.len() / 3;
    match rng.below(9) {
        0 => words.push(*rng.pick(&[0, 1, FILL])),
        1 => words.truncate(words.len().saturating_sub(rng.between(1, 2))),
        2 if rows > 1 => swap_rows(rng, words),
        3 if rows > 0 => {
            let place = 3 * rng.below(rows);
            let copy: Vec<u16> = words[place..place + 3].to_vec();
            words.splice(place..place, copy);
        }
        4 if rng.chance(10) => words.resize(30_000 + 3 * rng.below(3), FILL),
        _ => damage_row(rng, atoms, words),
    }
}

fn swap_rows(rng: &mut Rng, words: &mut [u16]) {
    let place = 3 * rng.below(words.len() / 3 - 1);
    for word in place..place + 3 {
        words.swap(word, word + 3);
    }
}

/// Spoils one row; an empty set gets one.
fn damage_row(rng: &mut Rng, atoms: usize, words: &mut Vec<u16>) {
    if words.len() < 3 {
        *words = vec![FILL; 3];
    }
    let start = 3 * rng.below(words.len() / 3);
    let row = &mut words[start..start + 3];
    let place = rng.below(3);
    match rng.below(6) {
        0 => row[place] = FILL,
        1 => row[place] = 2 * atoms as u16 + rng.below(2) as u16,
        2 => row.swap(0, 1),
        3 => row[1] = row[0] ^ rng.below(2) as u16,
        4 => row[place] = FILL - 1,
        _ => row.fill(FILL),
    }
}
