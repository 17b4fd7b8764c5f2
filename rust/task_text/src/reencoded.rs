//! Re-encoded images as text: their words, or their parts with names.

use crate::task::parts;
use crate::words::line;
use crate::Names;

/// A re-encoded image, which must be right, as words: a line for each part,
/// under a comment that says what it holds.
pub fn words(image: &[u16]) -> String {
    const HEADINGS: [&str; 4] = [
        "domains: for each variable its number of values, and 1 if none is among them else 0",
        "atoms: for each atom its variable and value",
        "initial values",
        "goal: for each literal its variable, and 2 times its value, plus 1 if negated",
    ];
    let operators = usize::from(image[1]);
    let count = HEADINGS.len() + operators;
    let mut text = format!("# re-encoded image: {} words\n", image.len());
    text += "# numbers of variables and operators\n";
    text += &line(&image[..2]);
    text += "# directory: offset and length of each part\n";
    text += &line(&image[2..2 + 2 * count]);
    let mut parts = parts(image, count);
    for (heading, part) in HEADINGS.iter().zip(parts.by_ref()) {
        text += &format!("# {heading}\n");
        text += &line(part);
    }
    text += "# operators: count, precondition; count, rows of kind, variable, value, count, conditions\n";
    for part in parts {
        text += &line(part);
    }
    text
}

/// The variables of a re-encoded task, with the atoms of their values.
pub struct Variables<'a> {
    names: &'a Names,
    /// For each variable the atom of each value, and nothing for none.
    atoms: Vec<Vec<Option<usize>>>,
}

impl Variables<'_> {
    /// The variables of an image, which must be right.
    pub fn of<'a>(image: &[u16], names: &'a Names) -> Variables<'a> {
        let mut parts = parts(image, 4);
        let (domains, atoms) = (parts.next().unwrap_or(&[]), parts.next().unwrap_or(&[]));
        let sizes = domains.chunks_exact(2).map(|domain| domain[0].into());
        let mut variables: Vec<Vec<Option<usize>>> = sizes.map(|size| vec![None; size]).collect();
        for (atom, place) in atoms.chunks_exact(2).enumerate() {
            variables[usize::from(place[0])][usize::from(place[1])] = Some(atom);
        }
        Variables {
            names,
            atoms: variables,
        }
    }

    fn value(&self, variable: u16, value: u16) -> String {
        let atom = self.atoms[usize::from(variable)].get(usize::from(value));
        match atom {
            Some(&Some(atom)) => self.names.atoms.show(atom),
            _ => "none".to_string(),
        }
    }

    /// A literal: the variable has the value, or, negated, another one.
    fn literal(&self, pair: &[u16]) -> String {
        let sign = if pair[1] % 2 == 0 { "=" } else { "!=" };
        format!("v{}{sign}{}", pair[0], self.value(pair[0], pair[1] / 2))
    }

    fn literals(&self, words: &[u16]) -> String {
        let shown = words
            .chunks_exact(2)
            .map(|pair| format!(" {}", self.literal(pair)));
        shown.collect()
    }

    /// The values of a finite-domain state, each behind a space.
    pub fn state(&self, values: &[u16]) -> String {
        let shown = values.iter().enumerate();
        let show =
            |(variable, &value)| format!(" v{variable}={}", self.value(variable as u16, value));
        shown.map(show).collect()
    }

    /// The domains, a line for each variable.
    fn domains(&self) -> String {
        let mut text = String::new();
        for (variable, values) in self.atoms.iter().enumerate() {
            let show = |value| format!(" {}", self.value(variable as u16, value as u16));
            let shown: String = (0..values.len()).map(show).collect();
            text += &format!("variable v{variable}{shown}\n");
        }
        text
    }

    /// The lines of an operator's block.
    fn operator(&self, block: &[u16]) -> String {
        let (precondition, rest) = block[1..].split_at(2 * usize::from(block[0]));
        let mut text = String::new();
        if !precondition.is_empty() {
            text += &format!("  pre{}\n", self.literals(precondition));
        }
        let mut rows = &rest[1..];
        while let [kind, variable, value, count, rest @ ..] = rows {
            let (conditions, after) = rest.split_at(2 * usize::from(*count));
            if !conditions.is_empty() {
                text += &format!("  when{}", self.literals(conditions));
            } else {
                text += " ";
            }
            let kind = if *kind == 0 { "set" } else { "clear" };
            text += &format!(" {kind} v{variable}={}\n", self.value(*variable, *value));
            rows = after;
        }
        text
    }
}

/// A re-encoded image, which must be right, with names.
pub fn named(image: &[u16], names: &Names) -> String {
    let variables = Variables::of(image, names);
    let operators = usize::from(image[1]);
    let mut parts = parts(image, 4 + operators).skip(2);
    let mut text = format!(
        "# re-encoded task: its image has {} words (--numbers)\n",
        image.len()
    );
    text += &variables.domains();
    text += &format!("initial{}\n", variables.state(parts.next().unwrap_or(&[])));
    text += &format!("goal{}\n", variables.literals(parts.next().unwrap_or(&[])));
    for (number, block) in parts.enumerate() {
        text += &format!("operator {}\n", names.operators.show(number));
        text += &variables.operator(block);
    }
    text
}

#[cfg(test)]
mod tests {
    use super::*;

    /// Two atoms share a variable with none; the operator sets the second value
    /// under a condition, and clears the first.
    const IMAGE: [u16; 35] = [
        1, 1, 12, 2, 14, 4, 18, 1, 19, 2, 21, 14, 3, 1, 0, 0, 0, 1, 2, 0, 3, 1, 0, 0, 2, 0, 0, 1,
        1, 0, 3, 1, 0, 0, 0,
    ];

    /// The text of words is read as the words.
    #[test]
    fn words_read_back() {
        let read = crate::words::read(&words(&IMAGE)).expect("it has words");
        assert_eq!(read.image, IMAGE);
    }

    #[test]
    fn with_names() {
        let mut names = Names::default();
        names.atoms.push(Some("a"));
        names.atoms.push(Some("b"));
        let text = named(&IMAGE, &names);
        let expected = "variable v0 a b none\ninitial v0=none\ngoal v0!=b\noperator 0\n  pre v0=a\n  when v0!=b set v0=b\n  clear v0=a\n";
        assert_eq!(text.split_once('\n').map(|(_, rest)| rest), Some(expected));
    }
}
