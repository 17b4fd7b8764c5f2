//! Refusals in words, with the things that they name.

use crate::library::WIDTH;
use crate::set::Set;
use crate::task::Task;
use crate::{image_fault, limit};
use kulabismuth::Refusal;
use std::cmp::Ordering;
use task_text::task::TaskSpec;

/// What each question's "no" says, by its number.
const SAYS: [&str; 29] = [
    "",
    "the image has not 6 to 8192 words",
    "atoms are not 1 to 1024, or operators more than 1024",
    "the directory is not right",
    "the initial state is not right",
    "the goal is not right",
    "an operator's counts do not end at the end of its block",
    "an operator's literals and lists are not right",
    "the clause words are not whole rows, or more than 10000 rows",
    "a clause row is not right, or not above the row before it",
    "a clause is false initially",
    "a clause is not kept under an operator",
    "N is not 1 to 3, or LIMIT not 1 to 65535",
    "the mark buffer or the work buffer is too short",
    "the clauses do not fit 10000 rows",
    "no finding within the round limit",
    "groups or re-encoded image do not fit",
    "the re-encoded image is not right",
    "the state is not one of this task",
    "there is no such operator",
    "the precondition is false",
    "one variable is set to two values",
    "a variable without none is cleared",
    "no value, or two values, for a variable",
    "not a DIMACS text of this task: its form, its header's numbers, or a variable above the number of atoms",
    "a clause without a literal, with more than three, or with an atom twice",
    "more than 10000 different clauses",
    "the joined task passes 1024 atoms, 1024 operators or 8192 words",
    "the ticket's count is not the state's, or is 65535",
];

/// What a refusal by question 19 says.
pub fn no_operator(operator: u16, task: &Task) -> String {
    format!(
        "there is no operator {operator}; the task has {}, counted from 0",
        task.image[1]
    )
}

/// A refusal of an operator in a state; in a list run, of the step with this number.
pub fn of_step(
    refusal: Refusal,
    task: &Task,
    state: &[u8],
    operator: u16,
    step: Option<usize>,
) -> String {
    let step = |mark| step.map_or(String::new(), |number| format!("step {number}{mark} "));
    match refusal.number {
        19 => format!("19: {}{}", step(':'), no_operator(operator, task)),
        20 => {
            let named = task.names.operators.describe(operator.into());
            let lacking = task.names.show_literals(&lacking(task, state, operator));
            let step = step(',');
            format!("20: {step}operator {named}: its precondition {lacking} is not true")
        }
        _ => words(refusal, task, None),
    }
}

/// The literals of an operator's precondition that are false in a state.
fn lacking(task: &Task, state: &[u8], operator: u16) -> Vec<u16> {
    let operator = &TaskSpec::of_image(&task.image).operators[usize::from(operator)];
    let is_false = |&literal: &u16| state[usize::from(literal / 2)] != (1 - literal % 2) as u8;
    let literals = operator.precondition.iter().copied();
    literals.filter(is_false).collect()
}

/// What a refusal by question 28 says of the two counts.
pub fn of_ticket(ticket: u16, state: u16) -> String {
    let counts = format!("28: the ticket's count is {ticket}, and the state's is {state}");
    match ticket.cmp(&state) {
        Ordering::Less => format!("{counts}: something was committed since the ask"),
        Ordering::Greater => format!("{counts}: the ticket was not asked of this state"),
        Ordering::Equal => format!("28: the count is {state}, the last: nothing more is committed"),
    }
}

/// A refusal of a synthesis.
pub fn of_synthesis(refusal: Refusal, task: &Task, n: u16, limit: u16) -> String {
    match refusal.number {
        12 => format!("12: N is 1 to {WIDTH}, LIMIT 1 to 65535; given are {n} and {limit}"),
        15 => format!("15: {}", limit::advice(task.atoms(), n, limit)),
        _ => words(refusal, task, None),
    }
}

/// A refusal of clauses that were given with signs and atoms. The text that is
/// made of them has the right form and header.
pub fn of_lines(refusal: Refusal, task: &Task) -> String {
    match refusal.number {
        24 => "24: an atom that the task does not have".to_string(),
        _ => words(refusal, task, None),
    }
}

/// A refusal of a call on a task and, where there is one, a clause set.
pub fn words(refusal: Refusal, task: &Task, set: Option<&Set>) -> String {
    let place = |number: u64| number as usize;
    let text = match (refusal.number, set) {
        (1..=7, _) => image_fault::describe(refusal, &task.image, &task.names),
        (10, Some(set)) => {
            let clause = set.describe(place(refusal.first), &task.names);
            let line = set.place(place(refusal.first));
            format!("{clause} is false initially{line}")
        }
        (11, Some(set)) => {
            let clause = set.describe(place(refusal.first), &task.names);
            let operator = task.names.operators.describe(place(refusal.second));
            let line = set.place(place(refusal.first));
            format!("{clause} is not kept under operator {operator}{line}")
        }
        (number, _) => SAYS.get(number as usize).unwrap_or(&"").to_string(),
    };
    format!("{}: {text}", refusal.number)
}

#[cfg(test)]
mod tests {
    use super::*;

    #[test]
    fn counts_of_a_ticket() {
        for (ticket, state, end) in [
            (
                0,
                1,
                "is 0, and the state's is 1: something was committed since the ask",
            ),
            (
                0,
                65535,
                "state's is 65535: something was committed since the ask",
            ),
            (
                65535,
                1,
                "is 65535, and the state's is 1: the ticket was not asked of this state",
            ),
            (
                65535,
                65535,
                "28: the count is 65535, the last: nothing more is committed",
            ),
        ] {
            let words = of_ticket(ticket, state);
            assert!(words.ends_with(end), "{words}");
        }
    }
}
