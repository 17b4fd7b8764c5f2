//! A state with its commit count as text. Each line begins with a keyword:
//!
//! ```text
//! count 2       how many steps were committed
//! true A B ..   the atoms that are true; may come again and go on with the list
//! ```
//!
//! Both must be there, so that no part of a text passes for the whole. An atom
//! is given by its name or number.

use crate::names::not_below;
use crate::reader::atom;
use crate::token::{lines, Mistake, Token};
use crate::Names;

/// A state, a byte 0 or 1 for each atom, and its commit count.
#[derive(Clone, PartialEq, Eq, Debug)]
pub struct StateFile {
    pub count: u16,
    pub atoms: Vec<u8>,
}

/// The state of a text, for a task of so many atoms.
pub fn read(text: &str, names: &Names, atoms: u16) -> Result<StateFile, Mistake> {
    let (mut count, mut state, mut end) = (None, None, 1);
    for line in lines(text).filter(|line| !line.is_empty()) {
        let (keyword, tokens) = (line[0], &line[1..]);
        end = keyword.line;
        match keyword.text {
            "count" if count.is_some() => return Err(keyword.mistake("the count is given above")),
            "count" => count = Some(number(keyword, tokens)?),
            "true" => {
                let state = state.get_or_insert_with(|| vec![0; atoms.into()]);
                let mut tokens = tokens.iter();
                tokens.try_for_each(|token| make_true(token, names, state))?;
            }
            other => return Err(keyword.mistake(format!("'{other}' is not one of count, true"))),
        }
    }
    let missing = |keyword| Mistake {
        line: end,
        column: 1,
        text: format!("the text ends here without a line '{keyword}'"),
    };
    Ok(StateFile {
        count: count.ok_or_else(|| missing("count"))?,
        atoms: state.ok_or_else(|| missing("true"))?,
    })
}

/// The number behind `count`.
fn number(keyword: Token, tokens: &[Token]) -> Result<u16, Mistake> {
    match tokens {
        [] => Err(keyword.mistake("'count' without a number")),
        [token] => crate::parse_word(token.text).ok_or_else(|| {
            token.mistake(format!("'{}' is not a number from 0 to 65535", token.text))
        }),
        [_, more, ..] => Err(more.mistake("'count' has one number")),
    }
}

/// Makes an atom true, which must not be so already.
fn make_true(token: &Token, names: &Names, state: &mut [u8]) -> Result<(), Mistake> {
    let atom = atom(token, names)?;
    let Some(value) = state.get_mut(usize::from(atom)) else {
        return Err(token.mistake(not_below(atom, state.len())));
    };
    if *value == 1 {
        return Err(token.mistake(format!("atom {} stands in the state already", token.text)));
    }
    *value = 1;
    Ok(())
}

/// The true atoms of a state, each behind a space.
pub fn true_atoms(state: &[u8], names: &Names) -> String {
    let atoms = state.iter().enumerate().filter(|(_, &value)| value == 1);
    let shown = atoms.map(|(atom, _)| format!(" {}", names.atoms.show(atom)));
    shown.collect()
}

/// The text of a state, two lines.
pub fn write(state: &StateFile, names: &Names) -> String {
    let atoms = true_atoms(&state.atoms, names);
    format!("count {}\ntrue{atoms}\n", state.count)
}

#[cfg(test)]
mod tests {
    use super::*;

    /// Atoms a and b, and one without a name.
    fn names() -> Names {
        let mut names = Names::default();
        for name in [Some("a"), Some("b"), None] {
            names.atoms.push(name);
        }
        names
    }

    fn state(count: u16, atoms: [u8; 3]) -> StateFile {
        let atoms = atoms.to_vec();
        StateFile { count, atoms }
    }

    #[test]
    fn texts() {
        for (text, expected) in [
            ("count 2\ntrue a 2\n", state(2, [1, 0, 1])),
            (
                "# hoist\n true 1# b\n\n\tcount 65535\r\ntrue\ntrue 0",
                state(65535, [1, 1, 0]),
            ),
            ("true\ncount 007", state(7, [0, 0, 0])),
        ] {
            assert_eq!(read(text, &names(), 3), Ok(expected), "{text}");
        }
    }

    #[test]
    fn an_atom_may_be_called_as_a_keyword() {
        let mut names = Names::default();
        names.atoms.push(Some("true"));
        names.atoms.push(Some("count"));
        let held = StateFile {
            count: 1,
            atoms: vec![1, 1],
        };
        let text = write(&held, &names);
        assert_eq!(text, "count 1\ntrue true count\n");
        assert_eq!(read(&text, &names, 2), Ok(held));
    }

    #[test]
    fn written_and_read_again() {
        for bits in 0..8 {
            let held = state(
                65_528 + bits,
                [0, 1, 2].map(|atom| (bits >> atom & 1) as u8),
            );
            for names in [names(), Names::default()] {
                assert_eq!(read(&write(&held, &names), &names, 3), Ok(held.clone()));
            }
        }
        assert_eq!(write(&state(0, [1, 0, 1]), &names()), "count 0\ntrue a 2\n");
        assert_eq!(write(&state(3, [0, 0, 0]), &names()), "count 3\ntrue\n");
    }

    /// What is wrong with a text, by its place.
    fn assert_mistakes(texts: &[(&str, &str)]) {
        for (text, expected) in texts {
            let found = read(text, &names(), 3).expect_err(text).to_string();
            assert!(found.starts_with(expected), "{found}");
        }
    }

    #[test]
    fn mistakes_of_lines() {
        assert_mistakes(&[
            ("", "1:1: the text ends here without a line 'count'"),
            (
                "# x\n\ntrue a\n",
                "3:1: the text ends here without a line 'count'",
            ),
            (
                "\ncount 3\n",
                "2:1: the text ends here without a line 'true'",
            ),
            ("count 1\nfalse b", "2:1: 'false' is not one of count, true"),
            ("refused 28 0 0", "1:1: 'refused' is not one of count, true"),
        ]);
    }

    #[test]
    fn mistakes_of_counts() {
        assert_mistakes(&[
            ("count\ntrue", "1:1: 'count' without a number"),
            (
                "count 65536\ntrue",
                "1:7: '65536' is not a number from 0 to 65535",
            ),
            ("count -1\ntrue", "1:7: '-1' is not a number"),
            ("count 1 2\ntrue", "1:9: 'count' has one number"),
            ("count 1\n count 1\ntrue", "2:2: the count is given above"),
        ]);
    }

    #[test]
    fn mistakes_of_atoms() {
        assert_mistakes(&[
            ("count 1\ntrue a c", "2:8: no atom is called 'c'"),
            (
                "count 1\ntrue a 3",
                "2:8: atom 3 is not below the number of atoms, 3",
            ),
            (
                "count 1\ntrue 32767",
                "2:6: '32767' is not a number from 0 to 32766",
            ),
            (
                "count 1\ntrue +a",
                "2:6: an atom without a sign is expected",
            ),
            (
                "count 1\ntrue a\ntrue 0",
                "3:6: atom 0 stands in the state already",
            ),
        ]);
    }
}
