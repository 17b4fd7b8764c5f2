//! Asking first and committing later (document 02 §8): single calls, and the calls of a
//! list, one after the other.

use answer::Ticket;

use crate::task::TaskSpec;
use crate::{damage, random, state, Rng};

/// What one call is lent and given. An ask takes the ticket's operator alone.
#[derive(Clone, PartialEq, Eq, Debug)]
pub struct Single {
    pub image: Vec<u16>,
    pub state: Vec<u8>,
    pub count: u16,
    pub ticket: Ticket,
}

/// A call on any task, its image damaged with the given chance in percent. Now and then
/// the state is damaged; often the ticket's count is another one.
pub fn single(rng: &mut Rng, damaged: usize) -> Single {
    let task = random::any(rng);
    single_of(rng, &task, damaged)
}

/// The same on this task.
pub fn single_of(rng: &mut Rng, task: &TaskSpec, damaged: usize) -> Single {
    let state = lent_state(rng, task);
    let count = state_count(rng);
    let ticket = Ticket {
        count: ticket_count(rng, count),
        operator: operator(rng, task, &state),
    };
    let mut image = task.image();
    if rng.chance(damaged) {
        damage::task_image(rng, &mut image);
    }
    Single {
        image,
        state,
        count,
        ticket,
    }
}

/// The initial state, any, or a damaged one.
fn lent_state(rng: &mut Rng, task: &TaskSpec) -> Vec<u8> {
    let atoms = usize::from(task.atoms);
    match rng.below(10) {
        0 => state::damaged(rng, atoms),
        1..=5 => state::valid(rng, atoms),
        _ => (0..task.atoms)
            .map(|atom| u8::from(task.initial.contains(&atom)))
            .collect(),
    }
}

/// A commit count: 0, low, among the last, or any.
fn state_count(rng: &mut Rng) -> u16 {
    match rng.below(10) {
        0..=2 => 0,
        3 => rng.below(9) as u16,
        4..=6 => *rng.pick(&[65533, 65534, 65535]),
        _ => rng.word(),
    }
}

/// A ticket's count for a state with this one: the same, one near it, the lowest, one of
/// the last, or any.
fn ticket_count(rng: &mut Rng, count: u16) -> u16 {
    match rng.below(20) {
        0..=12 => count,
        13..=16 => near(rng, count),
        17 => 0,
        18 => *rng.pick(&[65534, 65535]),
        _ => rng.word(),
    }
}

/// One or two below or above this count.
fn near(rng: &mut Rng, count: u16) -> u16 {
    let difference = *rng.pick(&[1, 2]);
    if rng.chance(50) {
        count.wrapping_add(difference)
    } else {
        count.wrapping_sub(difference)
    }
}

/// An operator whose precondition is true, if there is one, or any number.
fn operator(rng: &mut Rng, task: &TaskSpec, state: &[u8]) -> u16 {
    let is_true = |&literal: &u16| {
        let byte = state.get(usize::from(literal / 2));
        byte.is_some_and(|&byte| u16::from(byte) != literal % 2)
    };
    let numbered = (0..).zip(&task.operators);
    let applicable: Vec<u16> = numbered
        .filter(|(_, operator)| operator.precondition.iter().all(is_true))
        .map(|(number, _)| number)
        .collect();
    match rng.place(applicable.len()) {
        Some(place) if rng.chance(60) => applicable[place],
        _ => state::operator(rng, task.operators.len()),
    }
}

/// A call of a list.
#[derive(Clone, Copy, PartialEq, Eq, Debug)]
pub enum Call {
    Ask(u16),
    Commit(Ticket, Origin),
}

/// Where a committed ticket comes from: an ask of the list, an ask under another image
/// or in another state, or nowhere.
#[derive(Clone, Copy, PartialEq, Eq, Debug)]
pub enum Origin {
    Asked,
    Elsewhere,
    Invented,
}

/// Chooses the calls of a list, by the tickets that its asks have got so far.
pub struct Caller {
    operators: usize,
    asked: Vec<Ticket>,
    elsewhere: Vec<Ticket>,
}

impl Caller {
    /// For a task with so many operators; `elsewhere` are tickets of other asks.
    pub fn new(operators: usize, elsewhere: Vec<Ticket>) -> Caller {
        Caller {
            operators,
            asked: Vec::new(),
            elsewhere,
        }
    }

    /// Keeps the ticket that an ask of the list has got.
    pub fn keep(&mut self, ticket: Ticket) {
        self.asked.push(ticket);
    }

    /// The next call, on a state with this count. Operator numbers can be too high.
    pub fn next(&self, rng: &mut Rng, count: u16) -> Call {
        let ticket = match rng.below(20) {
            0..=5 => self.asked.last().map(|&ticket| (ticket, Origin::Asked)),
            6..=7 => any_of(rng, &self.asked).map(|ticket| (ticket, Origin::Asked)),
            8 => any_of(rng, &self.elsewhere).map(|ticket| (ticket, Origin::Elsewhere)),
            9..=10 => Some((self.invented(rng, count), Origin::Invented)),
            _ => None,
        };
        match ticket {
            Some((ticket, origin)) => Call::Commit(ticket, origin),
            None => Call::Ask(state::operator(rng, self.operators)),
        }
    }

    fn invented(&self, rng: &mut Rng, count: u16) -> Ticket {
        Ticket {
            count: ticket_count(rng, count),
            operator: state::operator(rng, self.operators),
        }
    }
}

fn any_of(rng: &mut Rng, tickets: &[Ticket]) -> Option<Ticket> {
    rng.place(tickets.len()).map(|place| tickets[place])
}
