//! An example: a task with names for its atoms and operators, and its files.

use inputs::task::TaskSpec;
use reference::marks::MOST_MARK_BYTES;
use reference::synthesis::{synthesize, MOST_ROWS};
use task_text::names::NameList;
use task_text::{reencoded, words, writer, Names};

pub struct Example {
    pub name: &'static str,
    /// What the task is about; a line each.
    pub about: &'static [&'static str],
    pub n: u16,
    pub limit: u16,
    pub task: TaskSpec,
    pub atoms: Vec<String>,
    pub operators: Vec<String>,
}

impl Example {
    pub fn names(&self) -> Names {
        let list = |names: &[String]| {
            let mut list = NameList::default();
            names.iter().for_each(|name| assert!(list.push(Some(name))));
            list
        };
        assert_eq!(self.atoms.len(), usize::from(self.task.atoms));
        assert_eq!(self.operators.len(), self.task.operators.len());
        Names {
            atoms: list(&self.atoms),
            operators: list(&self.operators),
        }
    }

    /// What the task is about, and how its card is made, as comments.
    fn about(&self, ending: &str) -> String {
        let Example { name, n, limit, .. } = self;
        let about: String = self
            .about
            .iter()
            .map(|line| format!("# {line}\n"))
            .collect();
        format!("{about}#\n# ./kb card {n} {limit} examples/{name}.{ending}\n\n")
    }

    /// The task as a text with names.
    pub fn text(&self) -> String {
        let text = self.about("txt") + &writer::write(&self.task, &self.names());
        let read = task_text::read_task(&text).map(|file| (file.image, file.names));
        assert_eq!(read, Ok((self.task.image(), self.names())));
        text
    }

    /// The task as the words of its image.
    pub fn words(&self) -> String {
        let image = self.task.image();
        let text = self.about("words") + &words::write(&image, &self.names());
        let read = task_text::read_task(&text).map(|file| (file.image, file.names));
        assert_eq!(read, Ok((image, self.names())));
        text
    }

    /// The card's text.
    pub fn card(&self) -> String {
        let words = [vec![self.n, self.limit], self.task.image()].concat();
        let bytes: Vec<u8> = words.into_iter().flat_map(u16::to_le_bytes).collect();
        reference::card::card(&bytes)
    }

    /// The text of the re-encoded image, unless the task is refused.
    pub fn reencoded(&self) -> Option<String> {
        let image = self.task.image();
        let (mut clauses, mut work) = (vec![0; 3 * MOST_ROWS], vec![0; 3 * MOST_ROWS]);
        let marks = &mut [0; MOST_MARK_BYTES];
        let found = synthesize(&image, self.n, self.limit, &mut clauses, &mut work, marks).ok()?;
        let mut target = vec![0; 32_768];
        let clauses = &clauses[..3 * found.rows];
        let length = reference::reencoding::reencode(&image, clauses, marks, &mut target).ok()?;
        Some(reencoded::words(&target[..length]))
    }
}
