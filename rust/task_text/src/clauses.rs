//! Clause sets as text: a clause a line, each literal as its sign and its atom
//! (number or name), as the card prints them; or a DIMACS text, which is read by
//! the proved library. A whole card is read up to its groups.

use crate::names::not_below;
use crate::token::{lines, Mistake, Token};
use crate::Names;

/// Literals of a clause at the most.
pub const WIDTH: usize = 3;

/// A clause, and the line in which it ends.
#[derive(Clone, PartialEq, Eq, Debug)]
pub struct Clause {
    pub line: usize,
    pub literals: Vec<u16>,
}

/// The clauses of a text, and what looks wrong in it.
#[derive(Clone, PartialEq, Eq, Debug, Default)]
pub struct ClauseFile {
    pub clauses: Vec<Clause>,
    pub notes: Vec<Mistake>,
}

/// Whether a text is meant as DIMACS: a line begins with the header's word.
pub fn is_dimacs(text: &[u8]) -> bool {
    let mut lines = text.split(|&byte| byte == b'\n');
    lines.any(|line| line.split(u8::is_ascii_whitespace).next() == Some(b"p"))
}

/// The clauses of lines.
pub fn read(text: &str, names: &Names, atoms: u16) -> Result<ClauseFile, Mistake> {
    let mut file = ClauseFile::default();
    let mut stated = None;
    for line in lines(text).filter(|line| !line.is_empty()) {
        match line[0].text {
            "clauses" if stated.is_none() && file.clauses.is_empty() => {
                stated = Some((line[0], count(&line)?));
            }
            "groups" if stated.is_some() => break,
            "refused" => return Err(line[0].mistake("a refusal, not clauses")),
            _ => file.clause(&line, names, atoms)?,
        }
    }
    match stated {
        Some((head, stated)) if stated != file.clauses.len() => {
            let text = format!("{stated} clauses are stated, {} follow", file.clauses.len());
            Err(head.mistake(text))
        }
        _ => Ok(file),
    }
}

/// The number in a card's first line.
fn count(line: &[Token]) -> Result<usize, Mistake> {
    let number = line.get(1).and_then(|token| crate::parse_word(token.text));
    let number = number.ok_or_else(|| line[0].mistake("no number of clauses"))?;
    Ok(number.into())
}

/// A literal with its sign.
pub fn literal(text: &str, names: &Names) -> Result<u16, String> {
    if !text.starts_with(['+', '-']) {
        return Err(format!("'{text}' has no sign: +{text} or -{text}"));
    }
    names.literal(text)
}

impl ClauseFile {
    fn clause(&mut self, tokens: &[Token], names: &Names, atoms: u16) -> Result<(), Mistake> {
        let mut literals: Vec<u16> = Vec::new();
        for token in tokens {
            let found = literal(token.text, names).map_err(|text| token.mistake(text))?;
            if found / 2 >= atoms {
                self.notes.push(token.mistake(not_below(found / 2, atoms)));
            }
            if literals.iter().any(|other| other / 2 == found / 2) {
                self.notes
                    .push(token.mistake("its atom stands in this clause already"));
            }
            if literals.len() == WIDTH {
                let text = format!("more than {WIDTH} literals in a clause");
                self.notes.push(token.mistake(text));
            }
            literals.push(found);
        }
        let line = tokens[0].line;
        self.clauses.push(Clause { line, literals });
        Ok(())
    }

    /// The first line that has these literals, in whatever order.
    pub fn line_of(&self, literals: &[u16]) -> Option<usize> {
        let same = |clause: &&Clause| {
            let mut sorted = clause.literals.clone();
            sorted.sort_unstable();
            sorted == literals
        };
        self.clauses.iter().find(same).map(|clause| clause.line)
    }

    /// The clauses as a DIMACS text, for the proved library to read.
    pub fn dimacs(&self, atoms: u16) -> String {
        let mut text = format!("p cnf {atoms} {}\n", self.clauses.len());
        for clause in &self.clauses {
            text += &dimacs_line(&clause.literals);
        }
        text
    }
}

/// A clause as a line of a DIMACS text.
fn dimacs_line(literals: &[u16]) -> String {
    let mut text = String::new();
    for literal in literals {
        let sign = if literal % 2 == 0 { "" } else { "-" };
        text += &format!("{sign}{} ", literal / 2 + 1);
    }
    text + "0\n"
}

#[cfg(test)]
mod tests {
    use super::*;

    fn names() -> Names {
        let mut names = Names::default();
        for name in ["a", "b", "c"] {
            names.atoms.push(Some(name));
        }
        names
    }

    #[test]
    fn lines_become_dimacs() {
        let text = "# pairs\n-a -b\n\n+2 -0 # or c\n";
        let file = read(text, &names(), 3).expect("they are clauses");
        assert_eq!(file.dimacs(3), "p cnf 3 2\n-1 -2 0\n3 -1 0\n");
        assert_eq!(file.line_of(&[1, 4]), Some(4));
        assert_eq!(file.line_of(&[1]), None);
    }

    #[test]
    fn a_card_is_read_to_its_groups() {
        let text = "clauses 2 rounds 3\n-0 -1\n-0 -2\ngroups 1\n0 1 2 none\nvariable v0\n";
        let file = read(text, &names(), 3).expect("it is a card");
        assert_eq!(file.clauses.len(), 2);
        let none = read("clauses 0 rounds 3\ngroups 0\n", &names(), 3);
        assert_eq!(none, Ok(ClauseFile::default()));
    }

    #[test]
    fn mistakes() {
        for (text, expected) in [
            ("-a b\n", "1:4: 'b' has no sign"),
            ("-a\n -d\n", "2:2: no atom is called 'd'"),
            ("refused 15 0 0\n", "1:1: a refusal"),
            (
                "clauses 2 rounds 3\n-a\n",
                "1:1: 2 clauses are stated, 1 follow",
            ),
            ("clauses x\n", "1:1: no number of clauses"),
            ("-a\ngroups 1\n", "2:1: 'groups' has no sign"),
        ] {
            let found = read(text, &names(), 3).expect_err(text).to_string();
            assert!(found.starts_with(expected), "{found}");
        }
    }

    #[test]
    fn notes() {
        let file =
            read("+a -a\n+7\n-a -b -c -2\n", &names(), 3).expect("the proved library refuses it");
        let notes: Vec<String> = file.notes.iter().map(Mistake::to_string).collect();
        let expected = [
            "1:4: its atom stands in this clause already",
            "2:1: atom 7 is not below the number of atoms, 3",
            "3:10: its atom stands in this clause already",
            "3:10: more than 3 literals in a clause",
        ];
        assert_eq!(notes, expected);
    }

    #[test]
    fn which_texts_are_dimacs() {
        for text in [
            "p cnf 3 0\n",
            "c by the maker\np cnf 3 0\n",
            "\np\tcnf 3 0\n",
            "# x\r\np cnf 3 0\r\n",
            "p",
        ] {
            assert!(is_dimacs(text.as_bytes()), "{text}");
        }
        for text in [
            "-0 -1\n",
            "# p cnf\n",
            "clauses 0 rounds 1\n",
            "",
            "+c\n",
            "case-home\n",
            "c no header\n",
        ] {
            assert!(!is_dimacs(text.as_bytes()), "{text}");
        }
    }
}
