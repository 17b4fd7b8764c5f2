//! Clause sets, from lines or from DIMACS texts.

use crate::library::{literals, WIDTH};
use crate::task::{Task, MOST_NOTES};
use crate::{input, library, refusal, Failure};
use task_text::clauses::{self, ClauseFile};
use task_text::{dimacs, Names};

/// A set of right clause rows, and the file and lines that they came from.
pub struct Set {
    pub rows: Vec<u16>,
    source: Option<(String, ClauseFile)>,
}

impl Set {
    /// The set of a file. The library makes the rows, also of lines: these are
    /// handed to it as a DIMACS text.
    pub fn read(file: &str, task: &Task) -> Result<Set, Failure> {
        let bytes = input::bytes(file)?;
        let (read, lines) = match clauses::is_dimacs(&bytes) {
            true => {
                let lines = dimacs::look(&String::from_utf8_lossy(&bytes), task.atoms());
                let read = library::read_dimacs(&task.image, &bytes);
                (read.map_err(|refusal| task.refused(refusal)), lines)
            }
            false => {
                let text = input::text(file, bytes)?;
                let lines = clauses::read(&text, &task.names, task.atoms())
                    .map_err(|mistake| input::failure(file, &mistake))?;
                (Set::of_lines(&lines, task), lines)
            }
        };
        let notes = lines.notes.iter().take(MOST_NOTES);
        let notes = notes.map(|note| input::located(file, note));
        let rows = read.map_err(|failure| failure.with(notes))?;
        let source = Some((input::shown(file).to_string(), lines));
        Ok(Set { rows, source })
    }

    /// The rows of lines.
    pub fn of_lines(lines: &ClauseFile, task: &Task) -> Result<Vec<u16>, Failure> {
        let read = library::read_dimacs(&task.image, lines.dimacs(task.atoms()).as_bytes());
        read.map_err(|refusal| task.refused_as(refusal, refusal::of_lines(refusal, task)))
    }

    /// A set that the library has made.
    pub fn of(rows: Vec<u16>) -> Set {
        Set { rows, source: None }
    }

    /// The row of a clause.
    pub fn row(&self, number: usize) -> Option<Vec<u16>> {
        self.rows
            .chunks_exact(WIDTH)
            .nth(number)
            .map(<[u16]>::to_vec)
    }

    /// The literals of a clause.
    fn clause(&self, number: usize) -> Option<&[u16]> {
        self.rows.chunks_exact(WIDTH).nth(number).map(literals)
    }

    pub fn count(&self) -> usize {
        self.rows.len() / WIDTH
    }

    /// A clause by its number, with its literals.
    pub fn describe(&self, number: usize, names: &Names) -> String {
        let shown = names.show_literals(self.clause(number).unwrap_or(&[]));
        format!("clause {number} ({shown})")
    }

    /// Where a clause stands in its file, behind a semicolon.
    pub fn place(&self, number: usize) -> String {
        let place = || {
            let (file, lines) = self.source.as_ref()?;
            let line = lines.line_of(self.clause(number)?)?;
            Some(format!("; it stands in {file}, line {line}"))
        };
        place().unwrap_or_default()
    }

    /// The clauses, a line each.
    pub fn lines(&self, names: &Names) -> String {
        let rows = self.rows.chunks_exact(WIDTH).map(literals);
        rows.map(|row| names.show_literals(row) + "\n").collect()
    }
}
