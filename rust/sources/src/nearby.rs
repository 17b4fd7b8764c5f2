//! Rules near those of document 02 §3, written small. Where such a rule answers
//! otherwise, an input tells it from the right one.

pub mod judging;
pub mod steps;
