//! The card program's text.

use crate::answer::{ask, Answer, Finding};
use crate::clause::Clause;
use crate::groups::{form, Group};
use crate::marks::MOST_MARK_BYTES;
use crate::synthesis::{synthesize, MOST_ROWS};
use crate::task;

/// What the card program prints for the bytes on its standard input.
pub fn card(input: &[u8]) -> String {
    text(input).unwrap_or_else(|refusal| format!("{refusal}\n"))
}

fn text(input: &[u8]) -> Answer<String> {
    let whole = input.len().is_multiple_of(2) && (4..=16_388).contains(&input.len());
    ask(1, whole)?;
    let words: Vec<u16> = input
        .chunks_exact(2)
        .map(|pair| u16::from_le_bytes([pair[0], pair[1]]))
        .collect();
    let (n, limit, image) = (words[0], words[1], &words[2..]);
    let mut rows = vec![0; 3 * MOST_ROWS];
    let mut work = rows.clone();
    let marks = &mut [0; MOST_MARK_BYTES];
    let found = synthesize(image, n, limit, &mut rows, &mut work, marks)?;
    let task = task::read(image)?;
    let clauses = crate::clause::read(&rows[..3 * found.rows], task.atoms())?;
    let groups = form(task.atoms(), &clauses).groups;
    Ok(lines(found, &clauses, &groups))
}

/// The lines of a finding.
fn lines(found: Finding, clauses: &[Clause], groups: &[Group]) -> String {
    let mut text = format!("clauses {} rounds {}\n", found.rows, found.rounds);
    for clause in clauses {
        text += &line(clause.literals().map(|literal| {
            let sign = if literal.is_negated() { '-' } else { '+' };
            format!("{sign}{}", literal.atom())
        }));
    }
    text += &format!("groups {}\n", groups.len());
    for group in groups {
        let none = group.none.then(|| "none".to_string());
        text += &line(group.members.iter().map(u16::to_string).chain(none));
    }
    text
}

/// Fields separated by one space, ended by byte 10.
fn line(fields: impl Iterator<Item = String>) -> String {
    fields.collect::<Vec<_>>().join(" ") + "\n"
}
