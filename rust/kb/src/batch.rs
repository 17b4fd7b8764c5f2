//! The cards of a collection: `batch`.

use crate::call::Call;
use crate::task::Task;
use crate::{card, input, library, limit, refusal, Failure, Output};
use kulabismuth::Refusal;
use std::fs;
use std::io::{self, IsTerminal, Write};
use std::path::Path;
use std::sync::atomic::{AtomicUsize, Ordering};
use std::sync::mpsc;
use std::thread;
use std::time::Instant;

/// What a task's line says.
struct Line {
    name: String,
    atoms: u16,
    operators: u16,
    seconds: f64,
    made: Made,
}

enum Made {
    Card {
        rows: usize,
        rounds: u64,
        groups: usize,
    },
    Refused(Refusal, String),
    Unreadable(String),
}

/// What is asked of each task.
struct Asked {
    n: u16,
    limit: String,
}

pub fn batch(call: &Call) -> Result<Output, Failure> {
    let folder = Path::new(&call.arguments[0]);
    let files = files(folder)?;
    let asked = Asked {
        n: card::number("--n", call.option("--n").unwrap_or("2"))?,
        limit: call.option("--limit").unwrap_or("enough").to_string(),
    };
    limit::read(&asked.limit, 1, 1)?;
    let jobs = match call.option("--jobs") {
        Some(jobs) => card::number("--jobs", jobs)?.max(1).into(),
        None => thread::available_parallelism().map_or(1, usize::from),
    };
    let csv_file = call.option("--csv").map(CsvFile::open).transpose()?;
    let started = Instant::now();
    let lines = all_lines(folder, &files, &asked, jobs);
    let seconds = started.elapsed().as_secs_f64();
    if let Some(file) = csv_file {
        file.write(&csv(&lines))?;
    }
    Ok(Output {
        status: lines.iter().map(|line| line.status()).max().unwrap_or(0),
        ..Output::from(table(&lines) + &summary(&lines, seconds))
    })
}

/// A file that was found to be writable before the work began.
struct CsvFile<'a> {
    name: &'a str,
    file: fs::File,
}

impl CsvFile<'_> {
    fn open(name: &str) -> Result<CsvFile<'_>, Failure> {
        let opened = fs::File::options().create(true).append(true).open(name);
        let file = opened.map_err(|error| input::unwritable(name, error))?;
        Ok(CsvFile { name, file })
    }

    /// Writes the text in the place of what the file holds.
    fn write(mut self, text: &str) -> Result<(), Failure> {
        let emptied = self.file.set_len(0);
        let written = emptied.and_then(|()| self.file.write_all(text.as_bytes()));
        written.map_err(|error| input::unwritable(self.name, error))
    }
}

/// The names of the tasks of a folder, in order.
fn files(folder: &Path) -> Result<Vec<String>, Failure> {
    let failed =
        |error: io::Error| Failure::Usage(format!("cannot read {}: {error}", folder.display()));
    let mut names = Vec::new();
    for entry in fs::read_dir(folder).map_err(failed)? {
        let entry = entry.map_err(failed)?;
        let name = entry.file_name().to_string_lossy().into_owned();
        if name.ends_with(".txt") || name.ends_with(".words") {
            names.push(name);
        }
    }
    names.sort();
    match names.is_empty() {
        true => Err(Failure::Usage(format!(
            "no file in {} ends in .txt or .words",
            folder.display()
        ))),
        false => Ok(names),
    }
}

/// The lines of all tasks, `jobs` at a time.
fn all_lines(folder: &Path, files: &[String], asked: &Asked, jobs: usize) -> Vec<Line> {
    let next = AtomicUsize::new(0);
    let (sender, receiver) = mpsc::channel();
    let mut lines: Vec<Option<Line>> = files.iter().map(|_| None).collect();
    thread::scope(|scope| {
        for _ in 0..jobs.min(files.len()) {
            let (sender, next) = (sender.clone(), &next);
            scope.spawn(move || loop {
                let number = next.fetch_add(1, Ordering::Relaxed);
                let Some(file) = files.get(number) else {
                    break;
                };
                let line = line(folder, file, asked);
                if sender.send((number, line)).is_err() {
                    break;
                }
            });
        }
        drop(sender);
        for (done, (number, line)) in receiver.iter().enumerate() {
            lines[number] = Some(line);
            show_progress(done + 1, files.len());
        }
    });
    lines.into_iter().flatten().collect()
}

/// A line that is written over, where standard error is a terminal.
fn show_progress(done: usize, all: usize) {
    if io::stderr().is_terminal() {
        let end = if done == all { "\r\x1b[K" } else { "" };
        let _ = write!(io::stderr(), "\r{done} of {all} tasks{end}");
    }
}

/// The line of one task.
fn line(folder: &Path, name: &str, asked: &Asked) -> Line {
    let started = Instant::now();
    let path = folder.join(name).to_string_lossy().into_owned();
    let (atoms, operators, made) = match Task::read(&path) {
        Err(Failure::Usage(text) | Failure::Inner(text)) => (0, 0, Made::Unreadable(text)),
        Err(Failure::Refused(refusal, words)) => (0, 0, Made::Refused(refusal, words.concat())),
        Ok(task) => {
            let operators = task.image.get(1).copied().unwrap_or(0);
            (task.atoms(), operators, made(&task, asked))
        }
    };
    Line {
        name: name.to_string(),
        atoms,
        operators,
        seconds: started.elapsed().as_secs_f64(),
        made,
    }
}

fn made(task: &Task, asked: &Asked) -> Made {
    let limit = match limit::read(&asked.limit, task.atoms(), asked.n) {
        Ok((limit, _)) => limit,
        Err(_) => 0,
    };
    let made = library::synthesize(&task.image, asked.n, limit).and_then(|found| {
        let groups = library::groups(&task.image, &found.rows)?;
        Ok(Made::Card {
            rows: found.rows.len() / library::WIDTH,
            rounds: found.rounds,
            groups,
        })
    });
    made.unwrap_or_else(|refusal| {
        let words = refusal::of_synthesis(refusal, task, asked.n, limit);
        Made::Refused(refusal, words)
    })
}

impl Line {
    /// The exit status that a task asks for.
    fn status(&self) -> u8 {
        match self.made {
            Made::Card { .. } => 0,
            Made::Refused(..) => 1,
            Made::Unreadable(_) => 2,
        }
    }

    /// The numbers of rows, rounds and groups of a card.
    fn counts(&self) -> [String; 3] {
        match self.made {
            Made::Card {
                rows,
                rounds,
                groups,
            } => [rows.to_string(), rounds.to_string(), groups.to_string()],
            _ => Default::default(),
        }
    }

    /// The refusal, or why there is none.
    fn failure(&self) -> Option<String> {
        match &self.made {
            Made::Card { .. } => None,
            Made::Refused(refusal, words) => Some(format!("{refusal}: {words}")),
            Made::Unreadable(text) => Some(format!("unreadable: {text}")),
        }
    }
}

/// The lines under a heading, in columns.
fn table(lines: &[Line]) -> String {
    let lengths = lines.iter().map(|line| line.name.chars().count());
    let width = lengths.max().unwrap_or(0).max("task".len());
    let row = |name: &str, sizes: [&str; 2], rest: &str| {
        let [atoms, operators] = sizes;
        format!("{name:width$} {atoms:>6} {operators:>9} {rest}\n")
    };
    let columns = |counts: &[String; 3], seconds: &str| {
        let [rows, rounds, groups] = counts;
        format!("{rows:>6} {rounds:>6} {groups:>6} {seconds:>8}")
    };
    let heading = columns(&["rows", "rounds", "groups"].map(str::to_string), "seconds");
    let mut text = row("task", ["atoms", "operators"], &heading);
    for line in lines {
        let made = || columns(&line.counts(), &format!("{:.3}", line.seconds));
        let sizes = [line.atoms.to_string(), line.operators.to_string()];
        let rest = line.failure().unwrap_or_else(made);
        text += &row(&line.name, [&sizes[0], &sizes[1]], &rest);
    }
    text
}

fn summary(lines: &[Line], seconds: f64) -> String {
    let count = |status| lines.iter().filter(|line| line.status() == status).count();
    let (cards, refused, unreadable) = (count(0), count(1), count(2));
    format!(
        "{} tasks: {cards} cards, {refused} refused, {unreadable} unreadable; {seconds:.1} seconds\n",
        lines.len()
    )
}

fn csv(lines: &[Line]) -> String {
    let mut text = "task,atoms,operators,rows,rounds,groups,seconds,refusal\n".to_string();
    for line in lines {
        let failure = quoted(&line.failure().unwrap_or_default());
        text += &format!(
            "{},{},{},{},{:.6},{failure}\n",
            quoted(&line.name),
            line.atoms,
            line.operators,
            line.counts().join(","),
            line.seconds
        );
    }
    text
}

/// A field, in quotation marks where it needs them.
fn quoted(field: &str) -> String {
    match field.contains([',', '"', '\n']) {
        true => format!("\"{}\"", field.replace('"', "\"\"")),
        false => field.to_string(),
    }
}

#[cfg(test)]
mod tests {
    use super::*;

    #[test]
    fn fields() {
        assert_eq!(quoted("ring.txt"), "ring.txt");
        assert_eq!(quoted("a,\"b\""), "\"a,\"\"b\"\"\"");
    }

    #[test]
    fn the_worst_line_decides() {
        let line = |made| Line {
            name: "t".into(),
            atoms: 1,
            operators: 0,
            seconds: 0.5,
            made,
        };
        let card = line(Made::Card {
            rows: 1,
            rounds: 2,
            groups: 3,
        });
        let refusal = Refusal {
            number: 7,
            first: 1,
            second: 0,
        };
        let refused = line(Made::Refused(refusal, "7: x, y".into()));
        assert_eq!((card.status(), refused.status()), (0, 1));
        let expected = "task,atoms,operators,rows,rounds,groups,seconds,refusal\nt,1,0,1,2,3,0.500000,\nt,1,0,,,,0.500000,\"refused 7 1 0: 7: x, y\"\n";
        assert_eq!(csv(&[card, refused]), expected);
    }
}
