//! Ask first, commit later (document 02 §8): a step is asked for and gets a ticket, by
//! which it is done afterwards. Question 28.

use crate::answer::{self, Answer};
use crate::{state, task};

pub use crate::answer::Ticket;

/// Asks for a step in a state with this commit count: questions 1 to 7, 18 to 20.
pub fn ask(image: &[u16], state: &[u8], count: u16, operator: u16) -> Answer<Ticket> {
    let task = task::read(image)?;
    state::ask_state(&task, state)?;
    state::ask_applicable(&task, state, operator)?;
    Ok(Ticket { count, operator })
}

/// Does the step of a ticket in the lent state and adds one to its count: questions 1 to
/// 7, 18, 28, 19, 20. Whoever made the ticket, and in whatever state, it has the two
/// numbers alone.
pub fn commit(image: &[u16], state: &mut [u8], count: &mut u16, ticket: Ticket) -> Answer<()> {
    let task = task::read(image)?;
    state::ask_state(&task, state)?;
    answer::ask(28, ticket.count == *count && ticket.count != u16::MAX)?;
    state::apply(&task, state, ticket.operator, &mut Vec::new())?;
    *count += 1;
    Ok(())
}
