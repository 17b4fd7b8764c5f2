//! Coding of states: from atoms to values (question 23) and back.

use crate::answer::{ask, Answer};
use crate::fdr::{self, FdrTask};

/// Writes the finite-domain state of a task's state: questions 17, 18, 23.
pub fn encode(image: &[u16], state: &[u8], target: &mut [u16]) -> Answer<()> {
    let task = fdr::read(image)?;
    let in_range = state.iter().all(|&byte| byte <= 1);
    let lengths = state.len() == task.atoms().len() && target.len() == task.variables();
    ask(18, in_range && lengths)?;
    let values = values(&task, state);
    ask(23, values.is_some())?;
    target.copy_from_slice(&values.expect("question 23 was asked"));
    Ok(())
}

/// Writes the task's state of a finite-domain state: questions 17 and 18.
pub fn decode(image: &[u16], state: &[u16], target: &mut [u8]) -> Answer<()> {
    let task = fdr::read(image)?;
    task.ask_state(state)?;
    ask(18, target.len() == task.atoms().len())?;
    for (byte, (variable, value)) in target.iter_mut().zip(task.atoms()) {
        *byte = u8::from(state[variable] == value);
    }
    Ok(())
}

/// For each variable the value of its true atom, or none if there is no true
/// atom; `None` if it has two true atoms or none is omitted.
fn values(task: &FdrTask, state: &[u8]) -> Option<Vec<u16>> {
    let mut values: Vec<Option<u16>> = vec![None; task.variables()];
    for ((variable, value), &byte) in task.atoms().zip(state) {
        if byte == 1 && values[variable].replace(value).is_some() {
            return None;
        }
    }
    let or_none = |(variable, value): (usize, Option<u16>)| {
        value.or_else(|| task.domain(variable).none_value())
    };
    values.into_iter().enumerate().map(or_none).collect()
}
