//! Writes tasks as files.
//!
//! `example_files FOLDER` makes for each example, by the reference, NAME.txt (the
//! task as a text with names), NAME.words (its image), NAME.card and, where the task is not
//! refused, NAME.image (the re-encoded image), as `./kb card --numbers` prints them.
//!
//! `example_files FOLDER COUNT` makes so many tasks from a fixed seed, in both forms by turns,
//! for `./kb batch`.

mod collection;
mod example;
mod tasks;

use std::{env, fs, path::Path};

const USAGE: &str = "usage: example_files FOLDER [COUNT]";

fn main() {
    let mut arguments = env::args().skip(1);
    let folder = arguments.next().expect(USAGE);
    let folder = Path::new(&folder);
    let write = |name: String, text: String| {
        fs::write(folder.join(name), text).expect("the file is written");
    };
    match arguments.next().map(|count| count.parse().expect(USAGE)) {
        Some(count) => collection::tasks(count).for_each(|(name, text)| write(name, text)),
        None => write_examples(write),
    }
}

fn write_examples(write: impl Fn(String, String)) {
    for example in tasks::all() {
        let name = example.name;
        write(format!("{name}.txt"), example.text());
        write(format!("{name}.words"), example.words());
        write(format!("{name}.card"), example.card());
        if let Some(text) = example.reencoded() {
            write(format!("{name}.image"), text);
        }
    }
}
