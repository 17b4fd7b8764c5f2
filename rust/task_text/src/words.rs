//! Images as words: decimal numbers parted by white space, with comments from
//! '#' to the end of the line. Comment lines '# atom 0: NAME' and
//! '# operator 0: NAME' carry names.

use crate::names::{fault, NameList};
use crate::task::parts;
use crate::token::{lines, parse_word, Mistake};
use crate::{Names, TaskFile, MOST_WORDS};

/// The words of a text, and the names in its comments.
pub fn read(text: &str) -> Result<TaskFile, Mistake> {
    let mut image = Vec::new();
    for token in lines(text).flatten() {
        let mistake = || {
            let text = format!("'{}' is not a number from 0 to 65535", token.text);
            token.mistake(text)
        };
        image.push(parse_word(token.text).ok_or_else(mistake)?);
    }
    if image.len() > MOST_WORDS {
        return Err(Mistake {
            line: text.lines().count(),
            column: 1,
            text: format!(
                "{} words, but an image has at most {MOST_WORDS}",
                image.len()
            ),
        });
    }
    let names = names(text, &image)?;
    Ok(TaskFile {
        image,
        names,
        notes: Vec::new(),
    })
}

/// The names that comments give to the atoms and operators of the image.
fn names(text: &str, image: &[u16]) -> Result<Names, Mistake> {
    let count = |place: usize| image.get(place).copied().unwrap_or(0).into();
    let mut names = Names {
        atoms: NameList::unnamed(count(0)),
        operators: NameList::unnamed(count(1)),
    };
    for (number, line) in text.lines().enumerate() {
        let Some((list, thing, name)) = named(line, &mut names) else {
            continue;
        };
        if thing < list.len() && (list.name(thing).is_some() || !list.set(thing, name)) {
            return Err(Mistake {
                line: number + 1,
                column: 1,
                text: format!("the name '{name}', or another for the same number, is given above"),
            });
        }
    }
    Ok(names)
}

/// What a line names, if it is a comment that gives a name.
fn named<'a, 'b>(
    line: &'a str,
    names: &'b mut Names,
) -> Option<(&'b mut NameList, usize, &'a str)> {
    let (thing, name) = line.trim_end().strip_prefix("# ")?.split_once(": ")?;
    let (kind, number) = thing.split_once(' ')?;
    let list = match kind {
        "atom" => &mut names.atoms,
        "operator" => &mut names.operators,
        _ => return None,
    };
    let right = fault(name).is_none() && !name.contains(|c: char| c.is_whitespace() || c == '#');
    let number = parse_word(number)?.into();
    right.then_some((list, number, name))
}

/// Words parted by one space, on a line.
pub fn line(words: &[u16]) -> String {
    let fields: Vec<String> = words.iter().map(u16::to_string).collect();
    fields.join(" ") + "\n"
}

/// A task image, which must be right, as a text.
pub fn write(image: &[u16], names: &Names) -> String {
    let (atoms, operators) = (usize::from(image[0]), usize::from(image[1]));
    let directory = 2 + 2 * (2 + operators);
    let mut text = String::new();
    for atom in 0..atoms {
        text += &comment("atom", &names.atoms, atom);
    }
    text += "# numbers of atoms and operators\n";
    text += &line(&image[..2]);
    text += "# directory: offset and length of the initial state, the goal and each operator\n";
    text += &line(&image[2..directory]);
    let headings = [
        "initial state: the atoms that are true",
        "goal: its literals",
    ];
    let mut parts = parts(image, 2 + operators);
    for (heading, part) in headings.iter().zip(parts.by_ref()) {
        text += &format!("# {heading}\n{}", line(part));
    }
    text += "# operators: count, precondition literals; count, rows of effect literal, count, condition literals\n";
    for (operator, part) in parts.enumerate() {
        text += &comment("operator", &names.operators, operator);
        text += &line(part);
    }
    text
}

/// The comment that gives a name.
fn comment(kind: &str, names: &NameList, number: usize) -> String {
    let name = names.name(number);
    name.map_or(String::new(), |name| format!("# {kind} {number}: {name}\n"))
}

#[cfg(test)]
mod tests {
    use super::*;

    fn image_of(text: &str) -> Result<Vec<u16>, String> {
        let words = read(text).map(|file| file.image);
        words.map_err(|mistake| mistake.to_string())
    }

    #[test]
    fn words_and_comments() {
        assert_eq!(image_of("1 2\n# 3\n\t65535# 4 x\n"), Ok(vec![1, 2, 65535]));
        assert_eq!(image_of(""), Ok(Vec::new()));
    }

    #[test]
    fn mistakes() {
        for field in ["65536", "-1", "+1", "x", "1.0"] {
            let mistake = format!("2:3: '{field}' is not a number from 0 to 65535");
            assert_eq!(image_of(&format!("1\n2 {field}\n")), Err(mistake));
        }
        assert_eq!(
            image_of(&"0 ".repeat(MOST_WORDS)).map(|w| w.len()),
            Ok(8192)
        );
        let mistake = image_of(&"0 ".repeat(MOST_WORDS + 1));
        assert!(mistake.is_err_and(|text| text.contains("8193 words")));
    }

    #[test]
    fn names_in_comments() {
        let text =
            "# atom 1: b\n# atom 0: two words\n# atom 7: h\n# operator 0: go\n# a b: c\n2 1\n";
        let names = read(text).expect("it has words").names;
        let shown = [
            names.atoms.show(0),
            names.atoms.show(1),
            names.operators.show(0),
        ];
        assert_eq!(shown, ["0", "b", "go"]);
        for second in ["# atom 1: b", "# atom 0: c"] {
            let twice = image_of(&format!("2 0\n# atom 0: b \n{second}\n"));
            assert!(twice.is_err_and(|text| text.starts_with("3:1: the name")));
        }
    }
}
