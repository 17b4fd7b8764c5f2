//! Files and standard input.

use crate::Failure;
use std::fs::File;
use std::io::{self, Read};
use task_text::Mistake;

/// The bytes of a file, or of standard input for '-'.
pub fn bytes(file: &str) -> Result<Vec<u8>, Failure> {
    if file == "-" {
        return bytes_of(file, io::stdin());
    }
    let opened = File::open(file).map_err(|error| unreadable(file, error))?;
    bytes_of(file, opened)
}

/// The bytes of an open file.
pub fn bytes_of(file: &str, mut source: impl Read) -> Result<Vec<u8>, Failure> {
    let mut bytes = Vec::new();
    let read = source.read_to_end(&mut bytes);
    read.map_err(|error| unreadable(file, error))?;
    // A byte order mark is no part of a text.
    Ok(match bytes.strip_prefix(&[0xef, 0xbb, 0xbf]) {
        Some(rest) => rest.to_vec(),
        None => bytes,
    })
}

pub fn unreadable(file: &str, error: io::Error) -> Failure {
    Failure::Usage(format!("cannot read {}: {error}", shown(file)))
}

pub fn unwritable(file: &str, error: io::Error) -> Failure {
    Failure::Usage(format!("cannot write {file}: {error}"))
}

/// The bytes as a text.
pub fn text(file: &str, bytes: Vec<u8>) -> Result<String, Failure> {
    String::from_utf8(bytes).map_err(|error| {
        let at = error.utf8_error().valid_up_to();
        Failure::Usage(format!(
            "cannot read {}: byte {at} is not of a text",
            shown(file)
        ))
    })
}

/// A file as messages name it.
pub fn shown(file: &str) -> &str {
    match file {
        "-" => "standard input",
        _ => file,
    }
}

/// A mistake with the file that it is in.
pub fn located(file: &str, mistake: &Mistake) -> String {
    format!("{}:{mistake}", shown(file))
}

pub fn failure(file: &str, mistake: &Mistake) -> Failure {
    Failure::Usage(located(file, mistake))
}
