//! Cards and re-encoded tasks: `card` and `reencode`.

use crate::call::Call;
use crate::progress::Progress;
use crate::set::Set;
use crate::task::Task;
use crate::{library, limit, program, refusal, say, Failure};
use kulabismuth::Refusal;
use task_text::{parse_word, reencoded, Names};

/// What a synthesis is asked: N, LIMIT and TASK of a call.
struct Asked {
    n: u16,
    limit: u16,
    task: Task,
}

impl Asked {
    fn read(call: &Call) -> Result<Asked, Failure> {
        let [n, limit, file] = &call.arguments[..] else {
            return Err(Failure::Inner("N LIMIT TASK expected".to_string()));
        };
        let n = number("N", n)?;
        let task = Task::read(file)?;
        let (limit, said) = limit::read(limit, task.atoms(), n)?;
        if let Some(said) = said {
            say(&format!("kb: {said}"));
        }
        Ok(Asked { n, limit, task })
    }

    /// A refusal of the synthesis.
    fn refused(&self, refusal: Refusal) -> Failure {
        let words = refusal::of_synthesis(refusal, &self.task, self.n, self.limit);
        self.task.refused_as(refusal, words)
    }

    /// The set that synthesis finds.
    fn find(&self) -> Result<Set, Failure> {
        let found = library::synthesize(&self.task.image, self.n, self.limit);
        Ok(Set::of(
            found.map_err(|refusal| self.refused(refusal))?.rows,
        ))
    }
}

/// A number from 0 to 65535.
pub fn number(what: &str, text: &str) -> Result<u16, Failure> {
    let mistake = || Failure::Usage(format!("{what}: '{text}' is not a number from 0 to 65535"));
    parse_word(text).ok_or_else(mistake)
}

/// The task and the set that synthesis finds for it.
pub fn find(call: &Call) -> Result<(Task, Set), Failure> {
    let asked = Asked::read(call)?;
    let _progress = Progress::start(asked.n, &asked.task.image);
    let set = asked.find()?;
    Ok((asked.task, set))
}

/// The card, by the card program, and at the same time the image, by the library.
pub fn card(call: &Call) -> Result<String, Failure> {
    let asked = Asked::read(call)?;
    let card = call.has("--card") || !call.has("--image");
    let image = call.has("--image") || !call.has("--card");
    let task = &asked.task;
    let _progress = Progress::start(asked.n, &task.image);
    let program = program::start(asked.n, asked.limit, &task.image)?;
    let reencoded = image.then(|| reencode_found(&asked));
    let printed = program::finish(program)?;
    if let Some(refusal) = refused_card(&printed) {
        return Err(asked.refused(refusal));
    }
    let names = task.shown(call);
    let mut text = if card {
        with_names(&printed, &names)
    } else {
        String::new()
    };
    if let Some(image) = reencoded {
        text += &image_text(&image?, &names);
    }
    Ok(text)
}

/// The re-encoded image by the set that synthesis finds.
fn reencode_found(asked: &Asked) -> Result<Vec<u16>, Failure> {
    let set = asked.find()?;
    let image = library::reencode(&asked.task.image, &set.rows);
    image.map_err(|refusal| asked.task.refused_set(refusal, &set))
}

/// The refusal that a card is, if it is one.
fn refused_card(card: &str) -> Option<Refusal> {
    let mut fields = card.strip_prefix("refused ")?.split_whitespace();
    let mut place = || fields.next()?.parse().ok();
    Some(Refusal {
        number: place()? as u32,
        first: place()?,
        second: place()?,
    })
}

/// The card program's text with names in the place of numbers.
fn with_names(card: &str, names: &Names) -> String {
    let mut text = String::new();
    for line in card.lines() {
        let words: Vec<String> = line.split(' ').map(|word| with_name(word, names)).collect();
        let heads = line.starts_with("clauses ") || line.starts_with("groups ");
        text += &if heads {
            line.to_string()
        } else {
            words.join(" ")
        };
        text += "\n";
    }
    text
}

/// A word of a card: a literal, an atom or 'none'.
fn with_name(word: &str, names: &Names) -> String {
    let digits = word.trim_start_matches(['+', '-']);
    let sign = &word[..word.len() - digits.len()];
    match parse_word(digits) {
        Some(atom) => format!("{sign}{}", names.atoms.show(atom.into())),
        None => word.to_string(),
    }
}

/// The re-encoded task with names, or as words where there are none.
fn image_text(image: &[u16], names: &Names) -> String {
    match names.is_given() {
        true => reencoded::named(image, names),
        false => reencoded::words(image),
    }
}

pub fn reencode(call: &Call) -> Result<String, Failure> {
    let task = Task::read(&call.arguments[0])?;
    let set = Set::read(&call.arguments[1], &task)?;
    let image = library::reencode(&task.image, &set.rows);
    let image = image.map_err(|refusal| task.refused_set(refusal, &set))?;
    Ok(image_text(&image, &task.shown(call)))
}

#[cfg(test)]
mod tests {
    use super::*;

    #[test]
    fn names_in_a_card() {
        let mut names = Names::default();
        names.atoms.push(Some("a"));
        names.atoms.push(None);
        names.atoms.push(Some("c"));
        let card = "clauses 2 rounds 3\n-0 -1\n+2\ngroups 2\n0 1 none\n2\n";
        let expected = "clauses 2 rounds 3\n-a -1\n+c\ngroups 2\na 1 none\nc\n";
        assert_eq!(with_names(card, &names), expected);
        assert_eq!(with_names(card, &Names::default()), card);
    }

    #[test]
    fn refused_cards() {
        let refusal = Refusal {
            number: 7,
            first: 1,
            second: 0,
        };
        assert_eq!(refused_card("refused 7 1 0\n"), Some(refusal));
        assert_eq!(refused_card("clauses 0 rounds 1\n"), None);
    }
}
