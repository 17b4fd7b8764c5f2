//! Texts in DIMACS CNF: as written out, laid out in other ways, and damaged.

pub mod damage;

use std::collections::BTreeSet;

use crate::clauses::{self, Row};
use crate::random;
use crate::Rng;

/// A text before it is laid out as bytes; nothing here is checked.
#[derive(Clone, Debug)]
pub struct Text {
    /// The comment lines without their ends.
    pub comments: Vec<Vec<u8>>,
    /// What stands before the numbers: "p cnf".
    pub start: String,
    /// N, the number of clauses, then the literals and zeros.
    pub numbers: Vec<String>,
}

/// A clause as its literals in any order.
pub type Literals = Vec<u16>;

/// A literal as it stands in a text.
pub fn number(literal: u16) -> String {
    let sign = if literal.is_multiple_of(2) { "" } else { "-" };
    format!("{sign}{}", literal / 2 + 1)
}

impl Text {
    /// The text of clauses, without comments.
    pub fn new(atoms: usize, clauses: &[Literals]) -> Text {
        let mut numbers = vec![atoms.to_string(), clauses.len().to_string()];
        for clause in clauses {
            numbers.extend(clause.iter().map(|&literal| number(literal)));
            numbers.push("0".to_string());
        }
        Text {
            comments: Vec::new(),
            start: "p cnf".to_string(),
            numbers,
        }
    }

    /// The text as it is written out.
    pub fn plain(&self) -> Vec<u8> {
        self.lay_out(|place| {
            let line_ends = place == 2 || place > 2 && self.numbers[place - 1] == "0";
            (if line_ends { "\n" } else { " " }).to_string()
        })
    }

    /// The text with blanks and line ends wherever they may stand.
    pub fn odd(&self, rng: &mut Rng) -> Vec<u8> {
        let most = *rng.pick(&[1, 1, 2, 5]);
        let line_ends = *rng.pick(&[0, 20, 50, 100]);
        self.lay_out(|place| {
            let least = usize::from(place < self.numbers.len());
            let length = rng.between(least, most);
            let blank = |_| if rng.chance(line_ends) { '\n' } else { ' ' };
            (0..length).map(blank).collect()
        })
    }

    /// The bytes, with the blanks that stand before the number at each place
    /// and, at the last, after all numbers.
    fn lay_out(&self, mut blanks: impl FnMut(usize) -> String) -> Vec<u8> {
        let mut text = Vec::new();
        for line in &self.comments {
            text.extend(line);
            text.push(b'\n');
        }
        text.extend(self.start.bytes());
        for (place, number) in self.numbers.iter().enumerate() {
            text.extend(blanks(place).bytes());
            text.extend(number.bytes());
        }
        text.extend(blanks(self.numbers.len()).bytes());
        text
    }
}

/// The text of rows as it is written out.
pub fn written(atoms: usize, rows: &[Row]) -> Vec<u8> {
    let clauses: Vec<Literals> = rows.iter().map(clauses::literals).collect();
    Text::new(atoms, &clauses).plain()
}

/// The rows as someone might propose them: clauses and literals in any order,
/// equal clauses repeated.
pub fn proposal(rng: &mut Rng, rows: &[Row]) -> Vec<Literals> {
    let mut clauses: Vec<Literals> = rows.iter().map(clauses::literals).collect();
    if rng.chance(50) {
        for _ in 0..rng.below(rows.len() + 3) {
            let repeated = rng.place(rows.len()).map(|place| clauses[place].clone());
            clauses.extend(repeated);
        }
    }
    if rng.chance(70) {
        rng.shuffle(&mut clauses);
        for clause in &mut clauses {
            rng.shuffle(clause);
        }
    }
    clauses
}

/// Some comment lines, also such that look like other lines.
pub fn comments(rng: &mut Rng) -> Vec<Vec<u8>> {
    let count = *rng.pick(&[0, 0, 1, 1, 2, 5]);
    (0..count).map(|_| comment(rng)).collect()
}

fn comment(rng: &mut Rng) -> Vec<u8> {
    let alike = [
        "",
        " ",
        " a comment",
        "nf 3 1",
        " p cnf 3 1",
        "p cnf 3 1",
        "0",
    ];
    let mut line = vec![b'c'];
    if rng.chance(60) {
        line.extend(rng.pick(&alike).bytes());
    } else {
        let length = rng.below(20);
        line.extend((0..length).map(|_| rng.word() as u8));
        line.retain(|&byte| byte != b'\n');
    }
    line
}

/// The rows in a text of the right form.
pub fn right(rng: &mut Rng, atoms: usize, rows: &[Row]) -> Vec<u8> {
    let mut text = Text::new(atoms, &proposal(rng, rows));
    text.comments = comments(rng);
    if rng.chance(30) {
        text.plain()
    } else {
        text.odd(rng)
    }
}

/// A text of any kind: as written out, of the right form, or damaged.
pub fn any(rng: &mut Rng, atoms: usize, rows: &[Row]) -> Vec<u8> {
    match rng.below(20) {
        0..=1 => written(atoms, rows),
        2..=8 => right(rng, atoms, rows),
        _ => damage::damaged(rng, atoms, rows),
    }
}

/// A task and rows for it, sometimes many.
pub struct Source {
    /// The task's image, now and then damaged.
    pub image: Vec<u16>,
    pub atoms: usize,
    pub rows: Vec<Row>,
}

pub fn source(rng: &mut Rng) -> Source {
    let task = random::any(rng);
    let atoms = usize::from(task.atoms);
    let mut image = task.image();
    if rng.chance(25) {
        crate::damage::task_image(rng, &mut image);
    }
    let most = *rng.pick(&[1, 3, 8, 8, 30]);
    let mut rows = clauses::random_set(rng, atoms, most);
    if rng.chance(10) {
        rows.push(last_atom(rng, atoms));
    }
    rows.sort_unstable();
    rows.dedup();
    Source { image, atoms, rows }
}

/// A clause of the highest atom.
fn last_atom(rng: &mut Rng, atoms: usize) -> Row {
    let literal = 2 * (atoms - 1) + rng.below(2);
    clauses::row(&[literal as u16])
}

/// So many different rows of three literals, ascending; the atoms must do for
/// more.
pub fn distinct_rows(rng: &mut Rng, atoms: usize, count: usize) -> Vec<Row> {
    let mut rows = BTreeSet::new();
    while rows.len() < count {
        let literals: Vec<u16> = (0..3).map(|_| random::literal(rng, atoms)).collect();
        let row = clauses::row(&literals);
        if clauses::literals(&row).len() == 3 {
            rows.insert(row);
        }
    }
    rows.into_iter().collect()
}
