//! A task's states: setting to the initial one, steps, goal tests, list runs. Of
//! the effects of a step, an add beats a delete (document 02 §3).

use crate::answer::{ask, Answer, Refusal};
use crate::literal::{all_true, Literal};
use crate::task::{self, Operator, Task};

/// Sets the lent state to the initial one: questions 1 to 7, the length of 18.
pub fn initial(image: &[u16], state: &mut [u8]) -> Answer<()> {
    let task = task::read(image)?;
    ask(18, state.len() == task.atoms())?;
    state.fill(0);
    for &atom in task.initial() {
        state[usize::from(atom)] = 1;
    }
    Ok(())
}

/// Does one step in the lent state: questions 1 to 7, 18 to 20.
pub fn step(image: &[u16], state: &mut [u8], operator: u16) -> Answer<()> {
    let task = task::read(image)?;
    ask_state(&task, state)?;
    apply(&task, state, operator, &mut Vec::new())
}

/// Whether the goal is met: questions 1 to 7, 18.
pub fn goal(image: &[u16], state: &[u8]) -> Answer<bool> {
    let task = task::read(image)?;
    ask_state(&task, state)?;
    Ok(all_true(task.goal(), state))
}

/// Does the listed steps in their order and gives their number. Refused with 19 or
/// 20, the first place is the number of steps taken, which are kept.
pub fn run(image: &[u16], state: &mut [u8], list: &[u16]) -> Answer<usize> {
    let task = task::read(image)?;
    ask_state(&task, state)?;
    let mut fired = Vec::new();
    for (taken, &operator) in list.iter().enumerate() {
        apply(&task, state, operator, &mut fired).map_err(|refusal| Refusal {
            first: taken as u64,
            ..refusal
        })?;
    }
    Ok(list.len())
}

/// Question 18.
pub(crate) fn ask_state(task: &Task, state: &[u8]) -> Answer<()> {
    let in_range = state.iter().all(|&byte| byte <= 1);
    ask(18, state.len() == task.atoms() && in_range)
}

/// The operator, if it is applicable in a state of a task already read: questions 19
/// and 20.
pub(crate) fn ask_applicable<'a>(
    task: &Task<'a>,
    state: &[u8],
    operator: u16,
) -> Answer<Operator<'a>> {
    ask(19, usize::from(operator) < task.operators())?;
    let operator = task.operator(usize::from(operator));
    ask(20, all_true(operator.precondition, state))?;
    Ok(operator)
}

/// Applies an operator of a task already read to a state of it: questions 19
/// and 20. `fired` is scratch space.
pub fn apply(task: &Task, state: &mut [u8], operator: u16, fired: &mut Vec<Literal>) -> Answer<()> {
    let operator = ask_applicable(task, state, operator)?;
    fired.clear();
    fired.extend(
        operator
            .rows()
            .filter(|row| all_true(row.conditions, state))
            .map(|row| row.effect),
    );
    // Deletes are done before adds: an atom both deleted and added ends true.
    for effect in fired.iter().filter(|effect| effect.is_negated()) {
        state[effect.atom()] = 0;
    }
    for effect in fired.iter().filter(|effect| !effect.is_negated()) {
        state[effect.atom()] = 1;
    }
    Ok(())
}
