//! Names of atoms and operators. What has no name is called by its number.

use std::collections::HashMap;
use std::fmt::Display;

/// Words that a text or a card uses itself.
const RESERVED: [&str; 14] = [
    "atoms", "initial", "goal", "operator", "pre", "add", "del", "when", "none", "clauses",
    "groups", "refused", "rounds", "enough",
];

/// The highest atom number whose literals are words, and not the fill 65535.
const HIGHEST_ATOM: u16 = 32_766;

/// Why a word cannot be used as a name.
pub fn fault(name: &str) -> Option<String> {
    let begins = name.starts_with(|c: char| c.is_alphabetic() || c == '_');
    if !begins {
        return Some(format!("'{name}' does not begin with a letter or '_'"));
    }
    if name.contains(char::is_control) {
        return Some(format!("'{}' has a control character", name.escape_debug()));
    }
    RESERVED
        .contains(&name)
        .then(|| format!("'{name}' is a keyword"))
}

/// What is said of an atom number that is too high.
pub(crate) fn not_below(atom: u16, atoms: impl Display) -> String {
    format!("atom {atom} is not below the number of atoms, {atoms}")
}

/// The names of numbered things.
#[derive(Clone, PartialEq, Eq, Debug, Default)]
pub struct NameList {
    names: Vec<Option<String>>,
    numbers: HashMap<String, usize>,
}

impl NameList {
    /// So many things without names.
    pub fn unnamed(count: usize) -> NameList {
        NameList {
            names: vec![None; count],
            numbers: HashMap::new(),
        }
    }

    pub fn len(&self) -> usize {
        self.names.len()
    }

    pub fn is_empty(&self) -> bool {
        self.names.is_empty()
    }

    /// Whether one of them has a name.
    pub fn is_given(&self) -> bool {
        !self.numbers.is_empty()
    }

    /// Appends a thing; false if the name is taken.
    pub fn push(&mut self, name: Option<&str>) -> bool {
        self.names.push(None);
        name.is_none_or(|name| self.set(self.names.len() - 1, name))
    }

    /// Names a thing; false if the name is taken.
    pub fn set(&mut self, number: usize, name: &str) -> bool {
        let free = !self.numbers.contains_key(name);
        if free {
            self.names[number] = Some(name.to_string());
            self.numbers.insert(name.to_string(), number);
        }
        free
    }

    pub fn name(&self, number: usize) -> Option<&str> {
        self.names.get(number)?.as_deref()
    }

    /// The name, or the number.
    pub fn show(&self, number: usize) -> String {
        self.name(number)
            .map_or(number.to_string(), |name| name.to_string())
    }

    /// The number, and the name in brackets.
    pub fn describe(&self, number: usize) -> String {
        self.name(number)
            .map_or(number.to_string(), |name| format!("{number} ({name})"))
    }

    pub fn find(&self, name: &str) -> Option<usize> {
        self.numbers.get(name).copied()
    }

    /// The names of both, those that both have with a prefix.
    pub fn join(&self, other: &NameList) -> NameList {
        let mut joined = NameList::default();
        for (list, with, prefix) in [(self, other, "left."), (other, self, "right.")] {
            for name in &list.names {
                let unique = name.as_ref().map(|name| {
                    let mut unique = name.clone();
                    let lists = [self, other, &joined];
                    let taken = |name: &str| lists.iter().any(|list| list.find(name).is_some());
                    while with.find(name).is_some() && taken(&unique) {
                        unique = format!("{prefix}{unique}");
                    }
                    unique
                });
                joined.push(unique.as_deref());
            }
        }
        joined
    }
}

/// The names of a task.
#[derive(Clone, PartialEq, Eq, Debug, Default)]
pub struct Names {
    pub atoms: NameList,
    pub operators: NameList,
}

impl Names {
    pub fn is_given(&self) -> bool {
        self.atoms.is_given() || self.operators.is_given()
    }

    /// The names of two tasks joined.
    pub fn join(&self, other: &Names) -> Names {
        Names {
            atoms: self.atoms.join(&other.atoms),
            operators: self.operators.join(&other.operators),
        }
    }

    /// An atom by its name or number; the number may be too high.
    pub fn atom(&self, text: &str) -> Result<u16, String> {
        if let Some(number) = self.atoms.find(text) {
            return u16::try_from(number).map_err(|_| "too many atoms".to_string());
        }
        if !text.starts_with(|c: char| c.is_ascii_digit()) {
            return Err(format!("no atom is called '{text}'"));
        }
        super::parse_word(text)
            .filter(|&number| number <= HIGHEST_ATOM)
            .ok_or_else(|| format!("'{text}' is not a number from 0 to {HIGHEST_ATOM}"))
    }

    /// An operator by its name or number; the number may be too high.
    pub fn operator(&self, text: &str) -> Result<u16, String> {
        if let Some(number) = self.operators.find(text) {
            return u16::try_from(number).map_err(|_| "too many operators".to_string());
        }
        if !text.starts_with(|c: char| c.is_ascii_digit()) {
            return Err(format!("no operator is called '{text}'"));
        }
        super::parse_word(text).ok_or_else(|| format!("'{text}' is not a number from 0 to 65535"))
    }

    /// A literal: '-' and an atom, or an atom with or without '+'.
    pub fn literal(&self, text: &str) -> Result<u16, String> {
        let (name, sign) = match text.strip_prefix('-') {
            Some(name) => (name, 1),
            None => (text.strip_prefix('+').unwrap_or(text), 0),
        };
        Ok(2 * self.atom(name)? + sign)
    }

    /// A literal as its sign and atom.
    pub fn show_literal(&self, literal: u16) -> String {
        let sign = if literal % 2 == 0 { '+' } else { '-' };
        format!("{sign}{}", self.atoms.show(usize::from(literal / 2)))
    }

    /// Literals as signs and atoms, parted by single spaces.
    pub fn show_literals(&self, literals: &[u16]) -> String {
        let shown: Vec<String> = literals.iter().map(|&l| self.show_literal(l)).collect();
        shown.join(" ")
    }
}

#[cfg(test)]
mod tests {
    use super::*;

    fn list(names: &[&str]) -> NameList {
        let mut list = NameList::default();
        for name in names {
            assert!(list.push((!name.is_empty()).then_some(name)));
        }
        list
    }

    #[test]
    fn joined_names_are_unique() {
        let joined = list(&["a", "b", "", "left.a"]).join(&list(&["b", "a", "c", "right.b"]));
        let shown: Vec<String> = (0..8).map(|number| joined.show(number)).collect();
        let expected = [
            "left.left.a",
            "left.b",
            "2",
            "left.a",
            "right.right.b",
            "right.a",
            "c",
            "right.b",
        ];
        assert_eq!(shown, expected);
    }

    #[test]
    fn names_that_look_prefixed_stay_apart() {
        let names = list(&["x", "left.x"]);
        let joined = names.join(&names);
        let shown: Vec<String> = (0..4).map(|number| joined.show(number)).collect();
        let expected = ["left.left.x", "left.left.left.x", "right.x", "right.left.x"];
        assert_eq!(shown, expected);
    }

    #[test]
    fn faults() {
        for name in ["-a", "1a", "", "goal", "a\u{1b}b"] {
            assert!(fault(name).is_some(), "{name}");
        }
        assert!(["a", "_", "at(x,y)", "goals"]
            .iter()
            .all(|name| fault(name).is_none()));
    }

    #[test]
    fn literals() {
        let names = Names {
            atoms: list(&["a", "b"]),
            operators: NameList::unnamed(1),
        };
        for (text, literal) in [("a", 0), ("+a", 0), ("-a", 1), ("-1", 3), ("7", 14)] {
            assert_eq!(names.literal(text), Ok(literal));
        }
        for text in ["c", "--a", "32767", "1x", "", "-"] {
            assert!(names.literal(text).is_err(), "{text}");
        }
        assert_eq!(names.show_literals(&[1, 2, 8]), "-a +b +4");
    }
}
