//! Looks through a DIMACS text for the lines of its clauses, and for what the
//! library may refuse in it. The library reads it; this only says where.

use crate::clauses::{Clause, ClauseFile, WIDTH};
use crate::token::Token;

/// The clauses of a text with their lines, and what looks wrong.
pub fn look(text: &str, atoms: u16) -> ClauseFile {
    let mut looker = Looker {
        atoms,
        file: ClauseFile::default(),
        literals: Vec::new(),
        last: None,
    };
    let tokens = tokens(text);
    match &tokens[..] {
        [p, cnf, n, count, rest @ ..] if p.text == "p" && cnf.text == "cnf" => {
            looker.header(n);
            rest.iter().for_each(|token| looker.word(token));
            looker.end(count);
        }
        [first, ..] => looker.note(
            first,
            "the header 'p cnf', N, and the number of clauses are expected here; comments begin with 'c'",
        ),
        [] => {}
    }
    looker.file
}

/// The words behind the comment lines.
fn tokens(text: &str) -> Vec<Token<'_>> {
    let lines = text.split('\n').enumerate();
    let lines = lines.skip_while(|(_, line)| line.starts_with('c'));
    let mut found = Vec::new();
    for (number, line) in lines {
        let mut column = 1;
        for word in line.split(' ') {
            if !word.is_empty() {
                found.push(Token {
                    line: number + 1,
                    column,
                    text: word,
                });
            }
            column += word.chars().count() + 1;
        }
    }
    found
}

struct Looker<'a> {
    atoms: u16,
    file: ClauseFile,
    literals: Vec<u16>,
    last: Option<Token<'a>>,
}

impl<'a> Looker<'a> {
    fn note(&mut self, token: &Token, text: impl Into<String>) {
        self.file.notes.push(token.mistake(text));
    }

    fn header(&mut self, n: &Token) {
        if n.text != self.atoms.to_string() {
            self.note(
                n,
                format!(
                    "N is {}, and the task has {} atoms",
                    n.text.escape_debug(),
                    self.atoms
                ),
            );
        }
    }

    /// A literal, or the 0 at the end of a clause.
    fn word(&mut self, token: &Token<'a>) {
        self.last = Some(*token);
        if token.text == "0" {
            let literals = std::mem::take(&mut self.literals);
            if let Some(fault) = fault(&literals) {
                self.note(token, fault);
            }
            let line = token.line;
            self.file.clauses.push(Clause { line, literals });
            return;
        }
        match variable(token.text) {
            Some(variable) if variable <= u64::from(self.atoms) => {
                let sign = u16::from(token.text.starts_with('-'));
                self.literals.push(2 * (variable as u16 - 1) + sign);
            }
            Some(variable) => {
                let text = format!(
                    "variable {variable} is above the number of atoms, {}",
                    self.atoms
                );
                self.note(token, text);
            }
            None => self.note(
                token,
                format!("'{}' is not a literal", token.text.escape_debug()),
            ),
        }
    }

    fn end(&mut self, count: &Token) {
        if let (false, Some(last)) = (self.literals.is_empty(), self.last) {
            self.note(&last, "the last clause does not end in 0");
        }
        let found = self.file.clauses.len();
        if count.text != found.to_string() {
            self.note(
                count,
                format!(
                    "{} clauses are stated, {found} follow",
                    count.text.escape_debug()
                ),
            );
        }
    }
}

/// The variable of a literal, which is no number with a leading zero.
fn variable(text: &str) -> Option<u64> {
    let digits = text.strip_prefix('-').unwrap_or(text);
    let right = digits.bytes().all(|byte| byte.is_ascii_digit()) && !digits.starts_with('0');
    digits.parse().ok().filter(|_| right)
}

/// What question 25 says of a clause.
fn fault(literals: &[u16]) -> Option<String> {
    let twice = literals.iter().enumerate().find(|(at, literal)| {
        literals[..*at]
            .iter()
            .any(|other| other / 2 == **literal / 2)
    });
    match (literals.len(), twice) {
        (0, _) => Some("a clause without a literal ends here".to_string()),
        (_, Some((_, literal))) => Some(format!(
            "variable {} stands twice in the clause that ends here",
            literal / 2 + 1
        )),
        (length, _) if length > WIDTH => Some(format!("a clause of {length} literals ends here")),
        _ => None,
    }
}

#[cfg(test)]
mod tests {
    use super::*;
    use crate::Mistake;

    #[test]
    fn lines_of_clauses() {
        let file = look("c 7 0\np cnf 3\n2\n-1  -2 0\n3\n 1 0\n", 3);
        assert_eq!(file.line_of(&[1, 3]), Some(4));
        assert_eq!(file.line_of(&[0, 4]), Some(6));
        assert_eq!((file.clauses.len(), file.notes), (2, vec![]));
    }

    #[test]
    fn notes() {
        for (text, expected) in [
            (
                "cnf 3 0\np cnf 3 0\n7",
                "3:1: variable 7 is above the number of atoms, 3",
            ),
            ("P cnf 3 0\n", "1:1: the header"),
            ("p cnf 4 0\n", "1:7: N is 4, and the task has 3 atoms"),
            ("p cnf 3 2\n1 0\n", "1:9: 2 clauses are stated, 1 follow"),
            ("p cnf 3 1\n1 x 0\n", "2:3: 'x' is not a literal"),
            ("p cnf 3 1\n1 0\r\n", "2:3: '0\\r' is not a literal"),
            ("p cnf 3 1\n1 01 0\n", "2:3: '01' is not a literal"),
            (
                "p cnf 3 1\n1  4 0\n",
                "2:4: variable 4 is above the number of atoms, 3",
            ),
            (
                "p cnf 3 1\n0\n",
                "2:1: a clause without a literal ends here",
            ),
            ("p cnf 3 1\n1 -1 0\n", "2:6: variable 1 stands twice"),
            ("p cnf 3 0\n1 2\n", "2:3: the last clause does not end in 0"),
        ] {
            let notes = look(text, 3).notes;
            let found = notes.first().map(Mistake::to_string).unwrap_or_default();
            assert!(found.starts_with(expected), "{text}: {found}");
        }
        let four = look("p cnf 9 1\n1 2 3 4 0\n", 9).notes;
        assert_eq!(four[0].to_string(), "2:9: a clause of 4 literals ends here");
    }
}
