//! `kb show` of `kb image` gives a task back: tasks from a fixed seed, some atoms
//! and operators with names, by the program itself.

use inputs::{random, Rng};
use std::io::Write;
use std::process::{Command, Stdio};
use task_text::names::NameList;
use task_text::task::TaskSpec;
use task_text::{words, writer, Names};

const TASKS: usize = 2_000;

/// What the program prints for a text on standard input.
fn kb(command: &str, text: &str) -> String {
    let mut child = Command::new(env!("CARGO_BIN_EXE_kb"))
        .args([command, "-"])
        .stdin(Stdio::piped())
        .stdout(Stdio::piped())
        .spawn()
        .expect("kb starts");
    let mut input = child.stdin.take().expect("standard input is piped");
    input.write_all(text.as_bytes()).expect("kb reads");
    drop(input);
    let output = child.wait_with_output().expect("kb ends");
    assert!(output.status.success(), "kb {command} of\n{text}");
    String::from_utf8(output.stdout).expect("a text")
}

/// So many names, or numbers in their place.
fn names(rng: &mut Rng, count: usize) -> NameList {
    const ENDINGS: [&str; 6] = ["", "-a", "(x,y)", ".2", "_é", "=+-"];
    let percent = [0, 50, 100][rng.below(3)];
    let mut list = NameList::default();
    for number in 0..count {
        let name = format!("n{number}{}", ENDINGS[rng.below(ENDINGS.len())]);
        list.push(rng.chance(percent).then_some(&name));
    }
    list
}

fn task(rng: &mut Rng, number: usize) -> TaskSpec {
    match number {
        0 => random::largest(rng),
        _ if number % 10 == 1 => random::edge(rng),
        _ if number % 10 == 2 => random::structured(rng),
        _ => random::any(rng),
    }
}

#[test]
fn show_of_image() {
    let mut rng = Rng::new(1_900);
    for number in 0..TASKS {
        let task = task(&mut rng, number);
        let names = Names {
            atoms: names(&mut rng, task.atoms.into()),
            operators: names(&mut rng, task.operators.len()),
        };
        let text = writer::write(&task, &names);
        let image = kb("image", &text);
        assert_eq!(image, words::write(&task.image(), &names), "{text}");
        assert_eq!(kb("show", &image), text);
    }
}
