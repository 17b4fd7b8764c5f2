//! Says on standard error that a long synthesis is still going on.

use crate::say;
use std::sync::mpsc::{self, RecvTimeoutError, Sender};
use std::thread;
use std::time::{Duration, Instant};

const FIRST: Duration = Duration::from_secs(2);
const NEXT: Duration = Duration::from_secs(5);

/// Lines are written until this is dropped.
pub struct Progress {
    _until_dropped: Sender<()>,
}

impl Progress {
    pub fn start(n: u16, image: &[u16]) -> Progress {
        let text = describe(n, image);
        let started = Instant::now();
        let (sender, receiver) = mpsc::channel();
        thread::spawn(move || {
            let mut wait = FIRST;
            while receiver.recv_timeout(wait) == Err(RecvTimeoutError::Timeout) {
                say(&format!(
                    "kb: {text}: {} s so far",
                    started.elapsed().as_secs()
                ));
                wait = NEXT;
            }
        });
        Progress {
            _until_dropped: sender,
        }
    }
}

/// What is being done, with the sizes of the task.
fn describe(n: u16, image: &[u16]) -> String {
    let number = |place: usize| image.get(place).copied().unwrap_or(0);
    format!(
        "looking for clauses of up to {n} literals, {} atoms, {} operators, {} words",
        number(0),
        number(1),
        image.len()
    )
}
