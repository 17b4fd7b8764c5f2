//! Cases of the calls that write and read clauses as DIMACS CNF.

use crate::case::{Case, FILL};
use crate::collection::Collection;
use inputs::clauses::{self, FILL as NONE};
use inputs::dimacs::damage::{BYTES, CLAUSES, TEXT};
use inputs::dimacs::{self, Source, Text};
use inputs::task::TaskSpec;
use inputs::{structured, Rng};
use sources::target_length;

const WRITE: u16 = 17;
const READ: u16 = 18;

/// Texts for a task of three atoms that are of the right form.
const RIGHT: &[&str] = &[
    "p cnf 3 0",
    "p cnf 3 0\n",
    "p cnf\n3\n1 1\n0",
    "p cnf   3  \n\n 2 \n \n1   0\n-3 -1 2 0 \n",
    "c\np cnf 3 1 -3 0",
    "c one\nc two\ncnf\ncp cnf 9 9\np cnf 3 1\n3 0\n",
    "c\u{e9}\t\r\0 0 -0\np cnf 3 0",
    "p cnf 3 2\n1 2 0\n2 1 0\n",
    "p cnf 3 5\n-3 0\n1 0\n1 2 0\n-3 0 3 2 1 0",
    "p cnf 3 3\n-1 0\n1 0\n-1 0",
];

/// Texts that are not of the right form for it.
const WRONG: &[&str] = &[
    "",
    "c",
    "c\n",
    "c p cnf 3 0",
    "c\n\np cnf 3 0",
    "\np cnf 3 0",
    " p cnf 3 0",
    " c\np cnf 3 0",
    "p",
    "p cnf",
    "p cnf ",
    "p cnf 3",
    "p cnf3 0",
    "p  cnf 3 0",
    "P cnf 3 0",
    "p cnf\t3 0",
    "p cnf 3 0\r\n",
    "p cnf 3 0\nc end\n",
    "p cnf 3 1\nc\n1 0\n",
    "p cnf 3 1\n+1 0",
    "p cnf 3 1\n- 0",
    "p cnf 3 1\n1 -0",
    "p cnf 3 1\n1 00",
    "p cnf 3 1\n01 0",
    "p cnf 03 1\n1 0",
    "p cnf 3 01\n1 0",
    "p cnf 3 1\n1-2 0",
    "p cnf 2 1\n1 0",
    "p cnf 4 1\n1 0",
    "p cnf -3 1\n1 0",
    "p cnf 3 0\n1 0",
    "p cnf 3 2\n1 0",
    "p cnf 3 -1\n1 0",
    "p cnf 3 1\n1 2 0\n2 1 0",
    "p cnf 3 1\n1",
    "p cnf 3 1\n1 0 2",
    "p cnf 3 1\n4 0",
    "p cnf 3 1\n-4 0",
    "p cnf 3 1\n65537 0",
    "p cnf 3 1\n4294967297 0",
    "p cnf 3 1\n18446744073709551617 0",
    "p cnf 3 1\n1 4294967296",
    "p cnf 4294967299 1\n1 0",
    "p cnf 3 4294967297\n1 0",
    "p cnf 3 18446744073709551617\n1 0",
    "p cnf 3 2\n1 1 0\n4 0",
    "p cnf 3 2\n4 0\n1 1 0",
    "p cnf 3 1\n1 2 3 1 0 0",
];

/// Texts with a clause that is no row.
const NO_ROW: &[&str] = &[
    "p cnf 3 1\n0",
    "p cnf 3 2\n1 0\n0\n",
    "p cnf 3 1\n1 1 0",
    "p cnf 3 1\n1 -1 0",
    "p cnf 3 1\n-2 1 2 0",
    "p cnf 3 1\n1 2 3 1 0",
    "p cnf 3 2\n1 2 3 0\n3 3 0",
];

pub fn add_cases(collection: &mut Collection) {
    for case in fixed_cases() {
        collection.add(&case);
    }
    let rng = &mut Rng::new(20261119);
    for case in damaged_cases(rng).iter().chain(&round_trips(rng)) {
        collection.add(case);
    }
    collection.add_random(|| {
        let source = dimacs::source(rng);
        let call = [write, read];
        rng.pick(&call)(rng, &source)
    });
    collection.assert_numbers(WRITE, &[0, 1, 2, 3, 4, 5, 6, 7, 8, 9, 26]);
    collection.assert_numbers(READ, &[0, 1, 2, 3, 4, 5, 6, 7, 24, 25, 26]);
}

/// Writes clauses into room for so many bytes.
fn write_case(image: &[u16], clauses: &[u16], room: usize) -> Case {
    Case {
        call: WRITE,
        image: image.to_vec(),
        list: clauses.to_vec(),
        small: vec![FILL as u8; room],
        ..Case::default()
    }
}

/// Reads a text into room for so many words.
fn read_case(image: &[u16], text: &[u8], room: usize) -> Case {
    Case {
        call: READ,
        image: image.to_vec(),
        list: vec![FILL; room],
        small: text.to_vec(),
        ..Case::default()
    }
}

/// The image of a task of so many atoms without operators.
fn image(atoms: u16) -> Vec<u16> {
    let task = TaskSpec {
        atoms,
        ..TaskSpec::default()
    };
    task.image()
}

/// The ring's clauses, and the texts above.
fn fixed_cases() -> Vec<Case> {
    let ring = structured::ring(3).image();
    let rows = [0, 2, 4, 1, 3, NONE, 1, 5, NONE, 3, 5, NONE];
    let mut cases = vec![
        write_case(&ring, &rows, 60),
        write_case(&ring, &rows[..3], 18),
        write_case(&ring, &rows[..3], 17),
        write_case(&ring, &[], 10),
        write_case(&ring, &[], 9),
        write_case(&image(1024), &[0, 2045, 2046, 2047, NONE, NONE], 60),
        read_case(&image(1024), b"p cnf 1024 1\n-1024 0", 3),
        read_case(&image(1024), b"p cnf 1024 1\n1025 0", 3),
    ];
    let three = image(3);
    for text in RIGHT.iter().chain(WRONG).chain(NO_ROW) {
        cases.push(read_case(&three, text.as_bytes(), 14));
    }
    for room in 0..=7 {
        cases.push(read_case(&three, b"p cnf 3 3 3 0 1 0 3 0", room));
    }
    // 24 and 25 come before 26.
    cases.push(read_case(&three, b"p cnf 3 2 1 0 4 0", 0));
    cases.push(read_case(&three, b"p cnf 3 2 1 0 0", 0));
    cases
}

/// Rows of few atoms.
fn few_rows(rng: &mut Rng) -> (usize, Vec<clauses::Row>) {
    let atoms = rng.between(1, 12);
    (atoms, clauses::random_set(rng, atoms, 6))
}

/// Texts with each kind of damage.
fn damaged_cases(rng: &mut Rng) -> Vec<Case> {
    let mut cases = Vec::new();
    let mut add = |atoms: usize, text: &[u8]| {
        cases.push(read_case(&image(atoms as u16), text, 20));
    };
    for _ in 0..4 {
        for damage in CLAUSES {
            let (atoms, rows) = few_rows(rng);
            let mut proposal = dimacs::proposal(rng, &rows);
            damage(rng, atoms, &mut proposal);
            add(atoms, &Text::new(atoms, &proposal).odd(rng));
        }
        for damage in TEXT {
            let (atoms, rows) = few_rows(rng);
            let mut text = Text::new(atoms, &dimacs::proposal(rng, &rows));
            damage(rng, &mut text);
            add(atoms, &text.odd(rng));
        }
        for damage in BYTES {
            let (atoms, rows) = few_rows(rng);
            let mut text = dimacs::right(rng, atoms, &rows);
            damage(rng, &mut text);
            add(atoms, &text);
        }
    }
    cases
}

/// Rows written, and their text read again; one time as many as there is room
/// for.
fn round_trips(rng: &mut Rng) -> Vec<Case> {
    let mut cases = Vec::new();
    for (atoms, count) in [(5, 10), (1024, 10), (40, 150)] {
        let rows = dimacs::distinct_rows(rng, atoms, count);
        let image = image(atoms as u16);
        let text = dimacs::written(atoms, &rows);
        cases.push(write_case(&image, &rows.concat(), text.len() + 5));
        cases.push(read_case(&image, &text, 3 * count + 5));
        let text = dimacs::right(rng, atoms, &rows[..10]);
        cases.push(read_case(&image, &text, 31));
    }
    cases
}

/// The rows, seldom damaged, into a target that is just enough, or not.
fn write(rng: &mut Rng, source: &Source) -> Case {
    let mut rows = clauses::words(&source.rows);
    if rng.chance(20) {
        clauses::damage(rng, source.atoms, &mut rows);
    }
    let needed = dimacs::written(source.atoms, &source.rows).len();
    write_case(&source.image, &rows, target_length(rng, needed))
}

/// A text of any kind into a target that is just enough, or not.
fn read(rng: &mut Rng, source: &Source) -> Case {
    let text = dimacs::any(rng, source.atoms, &source.rows);
    let room = target_length(rng, 3 * source.rows.len());
    read_case(&source.image, &text, room)
}
