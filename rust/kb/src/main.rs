//! The tool that `./kb` runs: commands over the proved library and the proved
//! card program. What it does itself, texts and names, is not proved.

mod batch;
mod call;
mod card;
mod clauses;
mod image_fault;
mod input;
mod join;
mod library;
mod limit;
mod program;
mod progress;
mod refusal;
mod run;
mod set;
mod state_file;
mod task;
mod ticket;

use call::Call;
use kulabismuth::Refusal;
use std::env;
use std::ffi::OsString;
use std::io::{self, ErrorKind, Write};
use std::process::ExitCode;

/// Why nothing was found.
#[derive(Debug)]
enum Failure {
    /// The arguments or a file: exit status 2.
    Usage(String),
    /// The library refused, with what it says in words: exit status 1.
    Refused(Refusal, Vec<String>),
    /// The card program or the library did not do what it is made for: 3.
    Inner(String),
}

impl Failure {
    /// A refusal with more to say on standard error.
    fn with(self, lines: impl Iterator<Item = String>) -> Failure {
        match self {
            Failure::Refused(refusal, words) => {
                Failure::Refused(refusal, words.into_iter().chain(lines).collect())
            }
            other => other,
        }
    }
}

/// What is printed, the exit status, and what is said on standard error.
struct Output {
    text: String,
    status: u8,
    said: Vec<String>,
    /// The STATE file that is written already.
    written: Option<String>,
}

impl From<String> for Output {
    fn from(text: String) -> Output {
        Output {
            text,
            status: 0,
            said: Vec::new(),
            written: None,
        }
    }
}

fn main() -> ExitCode {
    let output = arguments().and_then(|words| answer(&Call::read(&words)?));
    let printed = output.or_else(refused).and_then(print);
    ExitCode::from(printed.unwrap_or_else(|failure| {
        let (text, status) = match failure {
            Failure::Usage(text) => (text, 2),
            Failure::Inner(text) => (text, 3),
            Failure::Refused(..) => unreachable!("printed as an output"),
        };
        say(&format!("kb: {text}"));
        status
    }))
}

/// The arguments, which must be texts.
fn arguments() -> Result<Vec<String>, Failure> {
    let text = |word: OsString| {
        let wrong = |word: OsString| Failure::Usage(format!("the argument {word:?} is not a text"));
        word.into_string().map_err(wrong)
    };
    env::args_os().skip(1).map(text).collect()
}

/// Says something on standard error, if somebody listens; the line is written
/// at once, so that lines of several calls stay whole.
fn say(line: &str) {
    let _ = io::stderr().write_all(format!("{line}\n").as_bytes());
}

/// The output of a refusal.
fn refused(failure: Failure) -> Result<Output, Failure> {
    match failure {
        Failure::Refused(refusal, said) => Ok(Output {
            status: 1,
            said,
            ..Output::from(format!("{refusal}\n"))
        }),
        other => Err(other),
    }
}

fn answer(call: &Call) -> Result<Output, Failure> {
    let text = match call.command.as_str() {
        "batch" => return batch::batch(call),
        "run" => return run::run(call),
        "commit" => return ticket::commit(call),
        "ask" => ticket::ask(call),
        "card" => card::card(call),
        "check" => clauses::check(call),
        "kept" => clauses::kept(call),
        "closure" => clauses::closure(call),
        "dimacs" => clauses::dimacs(call),
        "reencode" => card::reencode(call),
        "join" => join::join(call),
        "show" => task::show(call),
        "image" => task::image(call),
        other => Err(Failure::Inner(format!("no command '{other}'"))),
    };
    text.map(Output::from)
}

/// Prints an output, and gives its status; a reader that has gone away is no failure.
fn print(output: Output) -> Result<u8, Failure> {
    match io::stdout().write_all(output.text.as_bytes()) {
        Err(error) if error.kind() != ErrorKind::BrokenPipe => {
            let written = output.written.map(|file| format!("; {file} is written"));
            let written = written.unwrap_or_default();
            return Err(Failure::Inner(format!("cannot write: {error}{written}")));
        }
        _ => {}
    }
    output.said.iter().for_each(|line| say(line));
    Ok(output.status)
}
