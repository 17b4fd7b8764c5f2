//! Writes a task text; `reader` says what it is.

use crate::names::NameList;
use crate::task::{OperatorSpec, RowSpec, TaskSpec};
use crate::Names;

/// Columns of a line at the most, where its words permit.
const WIDTH: usize = 100;

/// The text of a task.
pub fn write(task: &TaskSpec, names: &Names) -> String {
    let atoms = |list: &[u16]| list.iter().map(|&a| names.atoms.show(a.into())).collect();
    let mut text = list("atoms", declared(&names.atoms, task.atoms.into()));
    text += &list("initial", atoms(&task.initial));
    text += &list("goal", literals(names, &task.goal));
    for (number, operator) in task.operators.iter().enumerate() {
        text += &match names.operators.name(number) {
            Some(name) => format!("operator {name}\n"),
            None => format!("operator # {number}\n"),
        };
        text += &self::operator(operator, names);
    }
    text
}

/// The names in order, and numbers for atoms without names.
fn declared(names: &NameList, count: usize) -> Vec<String> {
    let mut words = Vec::new();
    let mut unnamed = 0;
    for name in (0..count).map(|number| names.name(number)) {
        unnamed += usize::from(name.is_none());
        if let Some(name) = name {
            words.extend((unnamed > 0).then(|| unnamed.to_string()));
            words.push(name.to_string());
            unnamed = 0;
        }
    }
    words.extend((unnamed > 0).then(|| unnamed.to_string()));
    words
}

fn literals(names: &Names, literals: &[u16]) -> Vec<String> {
    let show = |&literal: &u16| {
        names
            .show_literal(literal)
            .trim_start_matches('+')
            .to_string()
    };
    literals.iter().map(show).collect()
}

/// A keyword and its words, on as many lines as they need.
fn list(keyword: &str, words: Vec<String>) -> String {
    let mut text = keyword.to_string();
    let mut column = text.chars().count();
    for word in words {
        let length = 1 + word.chars().count();
        if column + length > WIDTH && column > keyword.len() {
            text += &format!("\n{keyword}");
            column = keyword.len();
        }
        text += &format!(" {word}");
        column += length;
    }
    text + "\n"
}

fn operator(operator: &OperatorSpec, names: &Names) -> String {
    let mut text = String::new();
    if !operator.precondition.is_empty() {
        text += &list("  pre", literals(names, &operator.precondition));
    }
    for rows in operator.rows.chunk_by(|a, b| a.conditions == b.conditions) {
        text += &self::rows(rows, names);
    }
    text
}

/// Rows with the same conditions, on one line where it is not too long.
fn rows(rows: &[RowSpec], names: &Names) -> String {
    let conditions = literals(names, &rows[0].conditions).join(" ");
    let condition = match conditions.as_str() {
        "" => " ".to_string(),
        _ => format!("  when {conditions}"),
    };
    let mut parts = Vec::new();
    for rows in rows.chunk_by(|a, b| a.effect % 2 == b.effect % 2) {
        let effect = if rows[0].effect % 2 == 0 {
            "add"
        } else {
            "del"
        };
        let atoms = rows
            .iter()
            .map(|row| names.atoms.show((row.effect / 2).into()));
        parts.push((effect, atoms.collect::<Vec<String>>()));
    }
    let shown: String = parts
        .iter()
        .map(|(effect, atoms)| format!(" {effect} {}", atoms.join(" ")))
        .collect();
    if !conditions.is_empty() && condition.len() + shown.len() <= WIDTH {
        return format!("{condition}{shown}\n");
    }
    parts
        .into_iter()
        .map(|(effect, atoms)| list(&format!("{condition} {effect}"), atoms))
        .collect()
}

#[cfg(test)]
mod tests {
    use super::*;
    use crate::reader::read;

    fn again(text: &str) -> String {
        let read = read(text).expect("it is a task text");
        write(&TaskSpec::of_image(&read.image), &read.names)
    }

    #[test]
    fn written_as_read() {
        let text = "\
atoms a 2 b 1
initial a 4
goal -1 b
operator move
  pre a -b
  del a
  when 2 -4 add b 1 del 2
  add a a
  when 2 add a
operator # 1
";
        assert_eq!(again(text), text);
        let empty = "atoms 3\ninitial\ngoal\n";
        assert_eq!(again(empty), empty);
    }

    #[test]
    fn long_lists_take_several_lines() {
        let names: Vec<String> = (0..30).map(|number| format!("atom-{number}")).collect();
        let text = format!("atoms {}\ninitial\ngoal\n", names.join(" "));
        let written = again(&text);
        assert!(written.lines().all(|line| line.len() <= WIDTH));
        assert_eq!(again(&written), written);
        assert_eq!(read(&written), read(&text));
    }
}
