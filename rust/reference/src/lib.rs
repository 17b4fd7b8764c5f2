//! An independent implementation of document 01, "Ground invariants and
//! finite-domain cards", and of what has landed of document 02, "Further change
//! requests", written from these documents alone.
//!
//! Every public call works on lent slices as the C interface does and asks the
//! documents' questions in their order; the first "no" is the refusal.

pub mod agreement;
pub mod card;
pub mod checker;
pub mod clause;
pub mod closure;
pub mod coding;
pub mod dimacs;
mod directory;
pub mod fdr;
pub mod groups;
pub mod join;
pub mod kept;
pub mod literal;
pub mod marks;
pub mod naive;
pub mod operator_closure;
pub mod reencoding;
pub mod round_bound;
pub mod state;
pub mod synthesis;
pub mod task;
pub mod ticket;

pub use ::answer;
pub use answer::{Answer, Refusal, Reply};
