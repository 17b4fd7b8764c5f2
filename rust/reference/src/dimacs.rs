//! Clauses to and from DIMACS CNF (document 02 §1): questions 24 to 26.

use std::fmt::Write;

use crate::answer::{ask, Answer};
use crate::clause::{self, Clause};
use crate::literal::Literal;
use crate::synthesis::MOST_ROWS;
use crate::task;

/// Writes the clauses as text: questions 1 to 9, 26. The answer is the number
/// of bytes written; bytes after them stay.
pub fn write(image: &[u16], clauses: &[u16], text: &mut [u8]) -> Answer<usize> {
    let task = task::read(image)?;
    let clauses = clause::read(clauses, task.atoms())?;
    let written = written(task.atoms(), &clauses);
    ask(26, written.len() <= text.len())?;
    text[..written.len()].copy_from_slice(written.as_bytes());
    Ok(written.len())
}

/// The header and a line per clause.
fn written(atoms: usize, clauses: &[Clause]) -> String {
    let mut text = format!("p cnf {atoms} {}\n", clauses.len());
    for clause in clauses {
        for literal in clause.literals() {
            let sign = if literal.is_negated() { "-" } else { "" };
            write!(text, "{sign}{} ", literal.atom() + 1).expect("a string takes all");
        }
        text += "0\n";
    }
    text
}

/// Reads clauses from text: questions 1 to 7, 24 to 26. The answer is the
/// number of rows; words after them stay.
pub fn read(image: &[u16], text: &[u8], clauses: &mut [u16]) -> Answer<usize> {
    let task = task::read(image)?;
    let numbers = clause_numbers(text, task.atoms());
    ask(24, numbers.is_some())?;
    let rows = sorted_rows(&numbers.expect("question 24 was asked"));
    ask(25, rows.is_some())?;
    let rows = rows.expect("question 25 was asked");
    ask(
        26,
        rows.len() <= MOST_ROWS && 3 * rows.len() <= clauses.len(),
    )?;
    for (target, row) in clauses.chunks_exact_mut(3).zip(&rows) {
        target.copy_from_slice(&row.words());
    }
    Ok(rows.len())
}

/// Question 24: the numbers after the header, if the text has the right form.
fn clause_numbers(text: &[u8], atoms: usize) -> Option<Vec<i64>> {
    let after_cnf = without_comments(text)?.strip_prefix(b"p cnf")?;
    if !after_cnf.first().is_some_and(is_blank) {
        return None;
    }
    let tokens = after_cnf.split(is_blank).filter(|token| !token.is_empty());
    let mut numbers = tokens.map(number);
    let (header_atoms, header_count) = (numbers.next()??, numbers.next()??);
    let numbers: Vec<i64> = numbers.collect::<Option<_>>()?;
    let atoms = atoms as i64;
    let in_range = numbers.iter().all(|number| number.abs() <= atoms);
    let ended = numbers.last().is_none_or(|&last| last == 0);
    let count = numbers.iter().filter(|&&number| number == 0).count() as i64;
    let right = header_atoms == atoms && header_count == count && in_range && ended;
    right.then_some(numbers)
}

/// The text after the comment lines; `None` if the last one does not end.
fn without_comments(mut text: &[u8]) -> Option<&[u8]> {
    while text.starts_with(b"c") {
        let end = text.iter().position(|&byte| byte == b'\n')?;
        text = &text[end + 1..];
    }
    Some(text)
}

fn is_blank(byte: &u8) -> bool {
    matches!(byte, b' ' | b'\n')
}

/// A number as it may stand in a text. One too long for its type becomes the
/// highest or lowest, which is above every N and no count of clauses.
fn number(token: &[u8]) -> Option<i64> {
    if token == b"0" {
        return Some(0);
    }
    let (sign, digits) = match token.strip_prefix(b"-") {
        Some(digits) => (-1, digits),
        None => (1, token),
    };
    if matches!(digits, [] | [b'0', ..]) || !digits.iter().all(u8::is_ascii_digit) {
        return None;
    }
    let add_digit = |value: i64, digit: &u8| {
        let value = value.saturating_mul(10);
        value.saturating_add(i64::from(digit - b'0'))
    };
    Some(sign * digits.iter().fold(0, add_digit))
}

/// Question 25: the clauses of the numbers, sorted and each once.
fn sorted_rows(numbers: &[i64]) -> Option<Vec<Clause>> {
    let clauses = numbers.split_inclusive(|&number| number == 0);
    let rows = clauses.map(|clause| row(&clause[..clause.len() - 1]));
    let mut rows: Vec<Clause> = rows.collect::<Option<_>>()?;
    rows.sort_unstable();
    rows.dedup();
    Some(rows)
}

/// The clause of numbers that stand for 1 to 3 literals of different atoms.
fn row(numbers: &[i64]) -> Option<Clause> {
    if !(1..=3).contains(&numbers.len()) {
        return None;
    }
    let mut literals = [Literal(0); 3];
    let literals = &mut literals[..numbers.len()];
    for (literal, number) in literals.iter_mut().zip(numbers) {
        *literal = Literal::new(number.unsigned_abs() as u16 - 1, *number < 0);
    }
    literals.sort_unstable();
    let atom_twice = literals
        .windows(2)
        .any(|pair| pair[0].atom() == pair[1].atom());
    (!atom_twice).then(|| Clause::new(literals))
}
