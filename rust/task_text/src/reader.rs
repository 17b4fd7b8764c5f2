//! Reads a task text. Each line begins with a keyword:
//!
//! ```text
//! atoms A B ..          names in order; a number stands for so many atoms without names
//! initial A ..          the atoms that are true at first
//! goal L ..             literals: an atom, or '-' and an atom
//! operator [NAME]       begins an operator, to which the lines below belong
//! pre L ..              precondition
//! add A ..              effects; rows stand in the image as they stand here
//! del A ..
//! when L .. add A ..    conditional effects; also del, also both
//! ```
//!
//! An atom is given by its name or number. A keyword may come again: `atoms`,
//! `initial`, `goal` and `pre` go on with their list.

use crate::names::fault;
use crate::task::{no, yes, OperatorSpec, RowSpec, TaskSpec};
use crate::token::{lines, Mistake, Token};
use crate::{Names, TaskFile, MOST_WORDS};

const KEYWORDS: &str = "atoms, initial, goal, operator, pre, add, del, when";

/// The task of a text.
pub fn read(text: &str) -> Result<TaskFile, Mistake> {
    let mut reader = Reader::default();
    let lines: Vec<Vec<Token>> = lines(text).filter(|line| !line.is_empty()).collect();
    for line in lines.iter().filter(|line| line[0].text == "atoms") {
        reader.atoms(&line[1..])?;
    }
    reader.task.atoms = reader.names.atoms.len() as u16;
    for line in &lines {
        reader.line(line[0], &line[1..])?;
    }
    let end = lines.last().map_or(1, |line| line[0].line);
    reader.finish(end)
}

#[derive(Default)]
struct Reader {
    task: TaskSpec,
    names: Names,
    notes: Vec<Mistake>,
}

impl Reader {
    /// Declares atoms.
    fn atoms(&mut self, tokens: &[Token]) -> Result<(), Mistake> {
        for token in tokens {
            let atoms = &mut self.names.atoms;
            if token.text.starts_with(|c: char| c.is_ascii_digit()) {
                let count = crate::parse_word(token.text);
                let mistake = || token.mistake("not a number of atoms from 0 to 65535");
                (0..count.ok_or_else(mistake)?).for_each(|_| {
                    atoms.push(None);
                });
            } else {
                declare(token, |name| atoms.push(Some(name)))?;
            }
            if atoms.len() > usize::from(u16::MAX) {
                return Err(token.mistake("more than 65535 atoms"));
            }
        }
        Ok(())
    }

    /// A line with its keyword.
    fn line(&mut self, keyword: Token, tokens: &[Token]) -> Result<(), Mistake> {
        match keyword.text {
            "atoms" => Ok(()),
            "initial" => tokens.iter().try_for_each(|token| self.initial(token)),
            "goal" => {
                let goal = std::mem::take(&mut self.task.goal);
                self.task.goal = self.literals(tokens, goal)?;
                Ok(())
            }
            "operator" => self.operator(tokens),
            "pre" | "add" | "del" | "when" => self.part(keyword, tokens),
            other => Err(keyword.mistake(format!("'{other}' is not one of {KEYWORDS}"))),
        }
    }

    /// An atom that is true at first.
    fn initial(&mut self, token: &Token) -> Result<(), Mistake> {
        let atom = self.atom(token)?;
        if self.task.initial.contains(&atom) {
            self.note(token, "stands in the initial state already");
        }
        self.task.initial.push(atom);
        Ok(())
    }

    fn operator(&mut self, tokens: &[Token]) -> Result<(), Mistake> {
        if let Some(token) = tokens.get(1) {
            return Err(token.mistake("an operator has one name"));
        }
        match tokens.first() {
            Some(token) => declare(token, |name| self.names.operators.push(Some(name)))?,
            None => {
                self.names.operators.push(None);
            }
        }
        self.task.operators.push(OperatorSpec::default());
        Ok(())
    }

    /// A line of the last operator.
    fn part(&mut self, keyword: Token, tokens: &[Token]) -> Result<(), Mistake> {
        let Some(mut operator) = self.task.operators.pop() else {
            let text = format!("'{}' stands before the first operator", keyword.text);
            return Err(keyword.mistake(text));
        };
        match keyword.text {
            "pre" => operator.precondition = self.literals(tokens, operator.precondition)?,
            "when" => operator.rows.extend(self.conditional(keyword, tokens)?),
            effect => operator.rows.extend(self.rows(effect, tokens, &[])?),
        }
        self.task.operators.push(operator);
        Ok(())
    }

    /// Rows under a condition: literals, then `add` or `del` with atoms.
    fn conditional(&mut self, when: Token, tokens: &[Token]) -> Result<Vec<RowSpec>, Mistake> {
        let is_effect = |token: &Token| matches!(token.text, "add" | "del");
        let end = tokens.iter().position(is_effect);
        let end = end.ok_or_else(|| when.mistake("'when' without 'add' or 'del'"))?;
        if end == 0 {
            return Err(when.mistake("'when' without a condition"));
        }
        let mut conditions = self.literals(&tokens[..end], Vec::new())?;
        conditions.sort_unstable();
        let mut rows = Vec::new();
        let mut rest = &tokens[end..];
        while let [effect, after @ ..] = rest {
            let end = after.iter().position(is_effect).unwrap_or(after.len());
            rows.extend(self.rows(effect.text, &after[..end], &conditions)?);
            rest = &after[end..];
        }
        Ok(rows)
    }

    /// A row for each atom, which is added or deleted.
    fn rows(
        &mut self,
        effect: &str,
        tokens: &[Token],
        conditions: &[u16],
    ) -> Result<Vec<RowSpec>, Mistake> {
        let literal = if effect == "add" { yes } else { no };
        let row = |token| Ok(RowSpec::new(literal(self.atom(token)?), conditions));
        tokens.iter().map(row).collect()
    }

    /// An atom without a sign, which is noted where the task does not have it.
    fn atom(&mut self, token: &Token) -> Result<u16, Mistake> {
        let atom = atom(token, &self.names)?;
        self.note_missing(token, atom);
        Ok(atom)
    }

    /// The list with the literals behind it.
    fn literals(&mut self, tokens: &[Token], mut list: Vec<u16>) -> Result<Vec<u16>, Mistake> {
        for token in tokens {
            let literal = self
                .names
                .literal(token.text)
                .map_err(|text| token.mistake(text))?;
            self.note_missing(token, literal / 2);
            if list.iter().any(|other| other / 2 == literal / 2) {
                self.note(token, "stands in this list already");
            }
            list.push(literal);
        }
        Ok(list)
    }

    fn note_missing(&mut self, token: &Token, atom: u16) {
        let atoms = self.task.atoms;
        if atom >= atoms {
            self.note(token, &format!("is not below the number of atoms, {atoms}"));
        }
    }

    fn note(&mut self, token: &Token, text: &str) {
        let note = token.mistake(format!(
            "atom {} {text}",
            token.text.trim_start_matches(['+', '-'])
        ));
        self.notes.push(note);
    }

    /// The image, its lists sorted.
    fn finish(mut self, end: usize) -> Result<TaskFile, Mistake> {
        self.task.initial.sort_unstable();
        self.task.goal.sort_unstable();
        for operator in &mut self.task.operators {
            operator.precondition.sort_unstable();
        }
        let words = self.task.words();
        if words > MOST_WORDS {
            return Err(Mistake {
                line: end,
                column: 1,
                text: format!("the task's image would have {words} words, but an image has at most {MOST_WORDS}"),
            });
        }
        Ok(TaskFile {
            image: self.task.image(),
            names: self.names,
            notes: self.notes,
        })
    }
}

/// An atom without a sign; its number may be too high.
pub(crate) fn atom(token: &Token, names: &Names) -> Result<u16, Mistake> {
    if token.text.starts_with(['+', '-']) {
        return Err(token.mistake("an atom without a sign is expected"));
    }
    let atom = names.atom(token.text);
    atom.map_err(|text| token.mistake(text))
}

/// Declares a name.
fn declare(token: &Token, push: impl FnOnce(&str) -> bool) -> Result<(), Mistake> {
    if let Some(fault) = fault(token.text) {
        return Err(token.mistake(format!("not a name: {fault}")));
    }
    if push(token.text) {
        return Ok(());
    }
    Err(token.mistake(format!("'{}' is declared twice", token.text)))
}

#[cfg(test)]
mod tests {
    use super::*;

    const RING: &str = "
        # A token goes round.
        atoms a b
        atoms c
        initial a
        goal c
        operator ab
          pre a
          del a
          add b
        operator bc
          pre b   # comment
          del b
          add c
        operator
          pre 2
          del 2
          add 0";

    #[test]
    fn ring() {
        let read = read(RING).expect("it is a task text");
        let image = [
            3, 3, 12, 1, 13, 1, 14, 7, 21, 7, 28, 7, 0, 4, 1, 0, 2, 1, 0, 2, 0, 1, 2, 2, 3, 0, 4,
            0, 1, 4, 2, 5, 0, 0, 0,
        ];
        assert_eq!(read.image, image);
        assert_eq!(read.notes, []);
        assert_eq!(read.names.atoms.show(1), "b");
        assert_eq!(read.names.operators.show(1), "bc");
        assert_eq!(read.names.operators.show(2), "2");
    }

    #[test]
    fn conditions_and_order() {
        let text = "atoms 4\ngoal -3 1\ngoal 0\noperator x\npre 2 -1\nwhen 3 -0 add 1 2 del 3\ndel 0\nadd 0\n";
        let read = read(text).expect("it is a task text");
        let rows = [2, 2, 1, 6, 4, 2, 1, 6, 7, 2, 1, 6, 1, 0, 0, 0];
        assert_eq!(
            read.image[8..],
            [&[0, 2, 7, 2, 3, 4, 5][..], &rows].concat()
        );
    }

    /// The place and the beginning of what is said.
    fn mistake_of(text: &str) -> String {
        read(text).expect_err("it has a mistake").to_string()
    }

    #[test]
    fn mistakes() {
        for (text, expected) in [
            ("atoms a\ninitial b", "2:9: no atom is called 'b'"),
            ("atoms a\nstart a", "2:1: 'start' is not one of atoms"),
            ("atoms a a", "1:9: 'a' is declared twice"),
            ("atoms none", "1:7: not a name: 'none' is a keyword"),
            ("atoms ä -b", "1:9: not a name: '-b' does not begin"),
            ("atoms 3x", "1:7: not a number of atoms"),
            ("atoms 65535 1", "1:13: more than 65535 atoms"),
            (
                "atoms a\n  pre a",
                "2:3: 'pre' stands before the first operator",
            ),
            ("atoms a\noperator x y", "2:12: an operator has one name"),
            (
                "atoms a\noperator x\noperator x",
                "3:10: 'x' is declared twice",
            ),
            ("atoms a\noperator x\nadd -a", "3:5: an atom without a sign"),
            (
                "atoms a\noperator x\nwhen a",
                "3:1: 'when' without 'add' or 'del'",
            ),
            (
                "atoms a\noperator x\nwhen add a",
                "3:1: 'when' without a condition",
            ),
            (
                "atoms a\ngoal 32767",
                "2:6: '32767' is not a number from 0 to 32766",
            ),
        ] {
            let found = mistake_of(text);
            assert!(found.starts_with(expected), "{found}");
        }
        let long = format!("atoms 1\noperator x\n{}", "add 0\n".repeat(4100));
        assert!(mistake_of(&long).contains("but an image has at most 8192"));
    }

    #[test]
    fn notes() {
        let text = "atoms a\ninitial a 0\ngoal a -a\noperator x\npre 3\n";
        let read = read(text).expect("the proved library refuses it");
        let notes: Vec<String> = read.notes.iter().map(Mistake::to_string).collect();
        let expected = [
            "2:11: atom 0 stands in the initial state already",
            "3:8: atom a stands in this list already",
            "5:5: atom 3 is not below the number of atoms, 1",
        ];
        assert_eq!(notes, expected);
        assert_eq!(read.image[8..], [0, 0, 0, 1, 1, 6, 0]);
    }
}
