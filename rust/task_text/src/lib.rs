//! Tasks, clause sets, operator lists and states as text for people. Nothing here is
//! proved, and nothing here judges a task: names become numbers, lists are
//! sorted, and what comes of it is asked by the proved library.

pub mod clauses;
pub mod dimacs;
pub mod list;
pub mod names;
pub mod reader;
pub mod reencoded;
pub mod state;
pub mod task;
mod token;
pub mod words;
pub mod writer;

pub use names::Names;
pub use token::{parse_word, Mistake};

/// A task as it was read: the words of its image, its names, and what looks
/// wrong in its text. The notes say where; the proved library says what it is.
#[derive(Clone, PartialEq, Eq, Debug, Default)]
pub struct TaskFile {
    pub image: Vec<u16>,
    pub names: Names,
    pub notes: Vec<Mistake>,
}

/// Words of a task image at the most.
pub const MOST_WORDS: usize = 8192;

/// A task in either form: words of an image, which begin with a number, or a
/// task text, which begins with a keyword.
pub fn read_task(text: &str) -> Result<TaskFile, Mistake> {
    let first = token::lines(text).find_map(|line| line.into_iter().next());
    match first {
        Some(token) if !token.text.starts_with(|c: char| c.is_ascii_digit()) => reader::read(text),
        _ => words::read(text),
    }
}
