//! Calls of the proved library with rooms for the largest answers.

use kulabismuth::{Answer, Reply};
pub use task_text::clauses::WIDTH;

/// Room for as many clause words, mark bytes and image words as a call can ask for.
const CLAUSE_WORDS: usize = 10_000 * WIDTH;
const MARKS: usize = 256;
const IMAGE_WORDS: usize = 32_768;
/// A DIMACS text has no more bytes: the longest header, and 10,000 lines of
/// three literals.
const TEXT_BYTES: usize = 17 + 10_000 * 20;
/// What fills a clause row behind its literals.
pub const FILL: u16 = 65_535;

/// The finding's first value.
fn finding(reply: Reply) -> Answer<usize> {
    reply.answer().map(|(first, _)| first as usize)
}

/// The clauses that a synthesis finds, and its rounds.
pub struct Found {
    pub rows: Vec<u16>,
    pub rounds: u64,
}

pub fn read(image: &[u16]) -> Answer<()> {
    finding(kulabismuth::read(image)).map(|_| ())
}

pub fn synthesize(image: &[u16], n: u16, limit: u16) -> Answer<Found> {
    let (mut rows, mut work) = (vec![0; CLAUSE_WORDS], vec![0; CLAUSE_WORDS]);
    let reply = kulabismuth::synthesize(image, n, limit, &mut rows, &mut work, &mut [0; MARKS]);
    rows.truncate(WIDTH * finding(reply)?);
    Ok(Found {
        rows,
        rounds: reply.second,
    })
}

pub fn check(image: &[u16], rows: &[u16]) -> Answer<()> {
    finding(kulabismuth::check(image, rows, &mut [0; MARKS])).map(|_| ())
}

pub fn kept(image: &[u16], rows: &[u16], clause: &[u16], operator: u16) -> Answer<bool> {
    let reply = kulabismuth::kept(image, rows, clause, operator, &mut [0; MARKS]);
    finding(reply).map(|kept| kept == 1)
}

/// The number of groups.
pub fn groups(image: &[u16], rows: &[u16]) -> Answer<usize> {
    let mut target = vec![0; IMAGE_WORDS];
    finding(kulabismuth::groups(
        image,
        rows,
        &mut [0; MARKS],
        &mut target,
    ))
}

/// The re-encoded image.
pub fn reencode(image: &[u16], rows: &[u16]) -> Answer<Vec<u16>> {
    let mut target = vec![0; IMAGE_WORDS];
    let reply = kulabismuth::reencode(image, rows, &mut [0; MARKS], &mut target);
    target.truncate(finding(reply)?);
    Ok(target)
}

/// The literals of the closure of the clauses and an operator's precondition.
pub fn closure(image: &[u16], rows: &[u16], operator: u16) -> Answer<Vec<u16>> {
    let mut marks = [0; MARKS];
    finding(kulabismuth::closure(image, rows, operator, &mut marks))?;
    let marked = |&literal: &u16| marks[usize::from(literal / 8)] >> (literal % 8) & 1 == 1;
    Ok((0..2 * image[0]).filter(marked).collect())
}

/// The joined image.
pub fn join(left: &[u16], right: &[u16]) -> Answer<Vec<u16>> {
    let mut target = vec![0; IMAGE_WORDS];
    let reply = kulabismuth::join(left, right, &mut target);
    target.truncate(finding(reply)?);
    Ok(target)
}

pub fn read_dimacs(image: &[u16], text: &[u8]) -> Answer<Vec<u16>> {
    let mut rows = vec![0; CLAUSE_WORDS];
    let reply = kulabismuth::read_dimacs(image, text, &mut rows);
    rows.truncate(WIDTH * finding(reply)?);
    Ok(rows)
}

pub fn write_dimacs(image: &[u16], rows: &[u16]) -> Answer<Vec<u8>> {
    let mut text = vec![0; TEXT_BYTES];
    let reply = kulabismuth::write_dimacs(image, rows, &mut text);
    text.truncate(finding(reply)?);
    Ok(text)
}

/// Whether task and re-encoding agree along a list.
pub fn agree(image: &[u16], rows: &[u16], list: &[u16]) -> Answer<bool> {
    let reply = kulabismuth::agree(image, rows, list, &mut [0; MARKS]);
    finding(reply).map(|alike| alike == 1)
}

/// The literals of a row.
pub fn literals(row: &[u16]) -> &[u16] {
    let length = row.iter().position(|&word| word == FILL);
    &row[..length.unwrap_or(row.len())]
}
