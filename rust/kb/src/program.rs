//! The proved card program, run beside this one.

use crate::Failure;
use std::env;
use std::io::Write;
use std::process::{Child, Command, Stdio};

/// Starts the card program on a task.
pub fn start(n: u16, limit: u16, image: &[u16]) -> Result<Child, Failure> {
    let unset = |_| Failure::Inner("CARD_PROGRAM is not set: start it by ./kb".to_string());
    let path = env::var("CARD_PROGRAM").map_err(unset)?;
    let failed = |error| Failure::Inner(format!("cannot run {path}: {error}"));
    let mut child = Command::new(&path)
        .stdin(Stdio::piped())
        .stdout(Stdio::piped())
        .spawn()
        .map_err(failed)?;
    let words = [&[n, limit], image].concat();
    let bytes: Vec<u8> = words.into_iter().flat_map(u16::to_le_bytes).collect();
    let mut input = child.stdin.take().expect("standard input is piped");
    input.write_all(&bytes).map_err(failed)?;
    Ok(child)
}

/// What the card program has printed.
pub fn finish(program: Child) -> Result<String, Failure> {
    let output = program
        .wait_with_output()
        .map_err(|error| Failure::Inner(format!("the card program failed: {error}")))?;
    let text = String::from_utf8_lossy(&output.stdout).into_owned();
    if !output.status.success() || text.is_empty() {
        let status = output.status;
        return Err(Failure::Inner(format!("the card program failed: {status}")));
    }
    Ok(text)
}
