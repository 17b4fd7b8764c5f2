//! A collection of tasks from a fixed seed.

use inputs::{random, Rng};
use task_text::names::NameList;
use task_text::{words, writer, Names};

const SEED: u64 = 19;

/// So many tasks, each with its file's name; every other one is a task text with names.
pub fn tasks(count: usize) -> impl Iterator<Item = (String, String)> {
    let mut rng = Rng::new(SEED);
    (0..count).map(move |number| {
        let task = match number % 4 {
            0 | 1 => random::structured(&mut rng),
            _ => random::any(&mut rng),
        };
        match number % 2 {
            0 => {
                let names = names(task.atoms.into(), task.operators.len());
                (
                    format!("task-{number:03}.txt"),
                    writer::write(&task, &names),
                )
            }
            _ => {
                let text = words::write(&task.image(), &Names::default());
                (format!("task-{number:03}.words"), text)
            }
        }
    })
}

/// Names that say nothing.
fn names(atoms: usize, operators: usize) -> Names {
    let list = |kind: &str, count: usize| {
        let mut list = NameList::default();
        for number in 0..count {
            list.push(Some(&format!("{kind}-{number}")));
        }
        list
    };
    Names {
        atoms: list("atom", atoms),
        operators: list("act", operators),
    }
}
