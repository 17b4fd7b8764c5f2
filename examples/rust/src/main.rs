//! Makes the card of the ring of document 01 (clauses of at most 2 literals,
//! mutex groups), then checks two proposed clause sets given as DIMACS CNF
//! texts. `examples/c/card.c` does the same and prints the same text.

use kulabismuth::Answer;
use std::process::ExitCode;

/// A token goes round three places; atom a says that it is at place a.
const RING: [u16; 35] = [
    3, 3, 12, 1, 13, 1, 14, 7, 21, 7, 28, 7, 0, 4, 1, 0, 2, 1, 0, 2, 0, 1, 2, 2, 3, 0, 4, 0, 1, 4,
    2, 5, 0, 0, 0,
];
const PROPOSALS: [&str; 2] = [
    "p cnf 3 1\n-1 -2 0\n",
    "c in any order, one of them twice\np cnf 3 4\n-2 -1 0 -3 -1 0\n-2 -3 0 -1 -2 0\n",
];

const ATOMS: usize = 3;
const LITERALS: u16 = 2;
const ROUNDS: u16 = 10;
const ROW_WORDS: usize = 3;
const CLAUSE_WORDS: usize = 100 * ROW_WORDS;
const FILL: u16 = 65535;
/// A bit for each literal.
const MARK_BYTES: usize = ATOMS.div_ceil(4);

/// The literals of a row, each as its sign and atom.
fn row_text(row: &[u16]) -> String {
    let literals = row.iter().take_while(|&&literal| literal != FILL);
    let texts = literals.map(|l| format!("{}{}", if l % 2 == 0 { '+' } else { '-' }, l / 2));
    texts.collect::<Vec<String>>().join(" ")
}

/// The atoms of a variable, and "none" if that is one of its values.
fn group_text(groups: &[u16], variables: usize, variable: usize) -> String {
    let place = |atom: usize| usize::from(groups[2 * variables + 2 * atom]);
    let atoms = (0..ATOMS).filter(|&atom| place(atom) == variable);
    let mut texts: Vec<String> = atoms.map(|atom| atom.to_string()).collect();
    if groups[2 * variable + 1] == 1 {
        texts.push("none".to_string());
    }
    texts.join(" ")
}

/// Finds the clauses and the mutex groups, and prints them.
fn make_card() -> Answer<()> {
    let mut clauses = [0; CLAUSE_WORDS];
    let mut work = [0; CLAUSE_WORDS];
    let mut marks = [0; MARK_BYTES];
    let reply =
        kulabismuth::synthesize(&RING, LITERALS, ROUNDS, &mut clauses, &mut work, &mut marks);
    let (count, rounds) = reply.answer()?;
    println!("clauses {count} rounds {rounds}");
    let rows = &clauses[..ROW_WORDS * count as usize];
    for row in rows.chunks(ROW_WORDS) {
        println!("{}", row_text(row));
    }
    let mut groups = [0; 4 * ATOMS];
    let reply = kulabismuth::groups(&RING, rows, &mut marks, &mut groups);
    let variables = reply.answer()?.0 as usize;
    println!("groups {variables}");
    for variable in 0..variables {
        println!("{}", group_text(&groups, variables, variable));
    }
    Ok(())
}

/// Reads a proposed set and prints what the checker says of it.
fn check_proposal(text: &str) -> Answer<()> {
    let mut clauses = [0; CLAUSE_WORDS];
    let mut marks = [0; MARK_BYTES];
    let reply = kulabismuth::read_dimacs(&RING, text.as_bytes(), &mut clauses);
    let (count, _) = reply.answer()?;
    let rows = &clauses[..ROW_WORDS * count as usize];
    let said = match kulabismuth::check(&RING, rows, &mut marks).answer() {
        Ok(_) => "accepted".to_string(),
        Err(refusal) => refusal.to_string(),
    };
    println!("proposed clauses {count}: {said}");
    Ok(())
}

fn main() -> ExitCode {
    let checked = || PROPOSALS.iter().try_for_each(|text| check_proposal(text));
    match make_card().and_then(|()| checked()) {
        Ok(()) => ExitCode::SUCCESS,
        Err(refusal) => {
            println!("{refusal}");
            ExitCode::FAILURE
        }
    }
}
