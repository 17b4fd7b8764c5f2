//! Times the proved library (Rattle) against the reference (Rust), in one run
//! and on the same inputs. Both sides answer whole calls, so each validates
//! its image once per call. The results are compared.
//!
//! Arguments name the benchmarks to run (a part of the name is enough); without
//! arguments all run.

mod agreement;
mod checker;
mod closure;
mod dimacs;
mod fdr;
mod join;
mod synthesis;
mod task;
mod timing;

use timing::Bench;

fn main() {
    let bench = Bench::new(std::env::args().skip(1).collect());
    task::run(&bench);
    checker::run(&bench);
    synthesis::run(&bench);
    fdr::run(&bench);
    agreement::run(&bench);
    dimacs::run(&bench);
    join::run(&bench);
    closure::run(&bench);
}
