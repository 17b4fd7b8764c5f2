//! Writes the input and the expected output of the proved test programs, by
//! the reference: `cases CRATES_FOLDER` makes the files stdin and stdout of
//! task_cases, clause_cases, fdr_cases, agreement_cases, dimacs_cases,
//! join_cases, closure_cases and ticket_cases there.
//! The format is that of crates/cases/src/lib.rt.

mod agreement;
mod case;
mod clause;
mod closure;
mod collection;
mod dimacs;
mod fdr;
mod join;
mod task;
mod ticket;

use collection::Collection;
use std::{env, path::Path};

/// Adds the cases of one program.
type AddCases = fn(&mut Collection);

fn main() {
    let folder = env::args().nth(1).expect("usage: cases CRATES_FOLDER");
    let folder = Path::new(&folder);
    let programs: [(&str, AddCases); 8] = [
        ("task_cases", task::add_cases),
        ("clause_cases", clause::add_cases),
        ("fdr_cases", fdr::add_cases),
        ("agreement_cases", agreement::add_cases),
        ("dimacs_cases", dimacs::add_cases),
        ("join_cases", join::add_cases),
        ("closure_cases", closure::add_cases),
        ("ticket_cases", ticket::add_cases),
    ];
    for (name, add_cases) in programs {
        let mut collection = Collection::default();
        add_cases(&mut collection);
        collection.write(&folder.join(name));
        println!("{name}: {}", collection.summary());
    }
}
