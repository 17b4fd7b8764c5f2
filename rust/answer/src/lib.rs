//! Answers: a finding or a refusal with the number of its question, as the
//! implementation has them and as the C interface gives them.

use std::fmt;

/// A refusal: the question answered "no" and two places, zero unless named.
#[derive(Clone, Copy, PartialEq, Eq, Debug)]
pub struct Refusal {
    pub number: u32,
    pub first: u64,
    pub second: u64,
}

impl fmt::Display for Refusal {
    fn fmt(&self, f: &mut fmt::Formatter) -> fmt::Result {
        write!(f, "refused {} {} {}", self.number, self.first, self.second)
    }
}

pub type Answer<T> = Result<T, Refusal>;

/// Question `number`, which names no place.
pub fn ask(number: u32, yes: bool) -> Answer<()> {
    ask_at(number, yes, 0, 0)
}

/// Question `number`, whose refusal names places.
pub fn ask_at(number: u32, yes: bool, first: usize, second: usize) -> Answer<()> {
    if yes {
        return Ok(());
    }
    Err(Refusal {
        number,
        first: first as u64,
        second: second as u64,
    })
}

/// The finding of a synthesis: rows written and rounds made.
#[derive(Clone, Copy, PartialEq, Eq, Debug)]
pub struct Finding {
    pub rows: usize,
    pub rounds: usize,
}

/// What an ask gives and a commit takes (document 02 §8): the commit count of the state
/// and the operator.
#[derive(Clone, Copy, PartialEq, Eq, Debug)]
pub struct Ticket {
    pub count: u16,
    pub operator: u16,
}

/// An answer as the C interface gives it: 0 or the refusal's number, and two
/// values or places.
#[derive(Clone, Copy, PartialEq, Eq, Debug)]
pub struct Reply {
    pub number: u32,
    pub first: u64,
    pub second: u64,
}

impl Reply {
    pub fn finding(first: u64, second: u64) -> Reply {
        Reply {
            number: 0,
            first,
            second,
        }
    }

    /// The finding's values, or the refusal.
    pub fn answer(self) -> Answer<(u64, u64)> {
        let Reply {
            number,
            first,
            second,
        } = self;
        match number {
            0 => Ok((first, second)),
            _ => Err(Refusal {
                number,
                first,
                second,
            }),
        }
    }

    /// The reply of the reference, its finding turned into two values.
    fn of<T>(answer: Answer<T>, values: impl Fn(T) -> (u64, u64)) -> Reply {
        match answer.map(values) {
            Ok((first, second)) => Reply::finding(first, second),
            Err(Refusal {
                number,
                first,
                second,
            }) => Reply {
                number,
                first,
                second,
            },
        }
    }
}

impl From<Answer<()>> for Reply {
    fn from(answer: Answer<()>) -> Reply {
        Reply::of(answer, |()| (0, 0))
    }
}

impl From<Answer<bool>> for Reply {
    fn from(answer: Answer<bool>) -> Reply {
        Reply::of(answer, |yes| (u64::from(yes), 0))
    }
}

impl From<Answer<usize>> for Reply {
    fn from(answer: Answer<usize>) -> Reply {
        Reply::of(answer, |number| (number as u64, 0))
    }
}

impl From<Answer<Finding>> for Reply {
    fn from(answer: Answer<Finding>) -> Reply {
        Reply::of(answer, |found| (found.rows as u64, found.rounds as u64))
    }
}

impl From<Answer<Ticket>> for Reply {
    fn from(answer: Answer<Ticket>) -> Reply {
        Reply::of(answer, |ticket| {
            (ticket.count.into(), ticket.operator.into())
        })
    }
}
