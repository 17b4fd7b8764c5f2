//! The comparison of the proved library with the reference: what the tests
//! share.

pub mod calls;
pub mod guard;
pub mod kinds;
pub mod runs;
pub mod tally;

pub use guard::Guarded;
pub use kinds::Kinds;
pub use tally::Tally;
