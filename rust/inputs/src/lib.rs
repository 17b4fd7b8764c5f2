//! Deterministic inputs for tests and benchmarks: tasks, states, operator
//! lists, clause rows, re-encoded images, texts and tickets, valid and damaged.
//! Everything comes from a fixed seed, so a run can be repeated exactly.

pub mod add_delete;
pub mod clauses;
pub mod damage;
pub mod dimacs;
pub mod fdr;
pub mod fixed;
pub mod join;
pub mod random;
pub mod rng;
pub mod rounds;
pub mod small;
pub mod state;
pub mod structured;
pub mod ticket;

pub use rng::Rng;
pub use task_text::task;
