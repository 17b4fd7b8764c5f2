//! A step asked for first and committed later: `ask` and `commit`.

use crate::call::Call;
use crate::card::number;
use crate::task::Task;
use crate::{library, refusal, state_file, Failure, Output};
use task_text::state;

/// The task of a call, which must be right: a state is of so many atoms.
fn task(call: &Call) -> Result<Task, Failure> {
    let task = Task::read(&call.arguments[0])?;
    library::read(&task.image).map_err(|refusal| task.refused(refusal))?;
    Ok(task)
}

/// The ticket: a count and an operator.
pub fn ask(call: &Call) -> Result<String, Failure> {
    let task = task(call)?;
    let operator = task.operator(&call.arguments[2])?;
    let held = state_file::read(&call.arguments[1], &task)?;
    let reply = kulabismuth::ask(&task.image, &held.atoms, held.count, operator);
    let (count, operator) = reply.answer().map_err(|refusal| {
        let words = refusal::of_step(refusal, &task, &held.atoms, operator, None);
        task.refused_as(refusal, words)
    })?;
    let name = task.shown(call).operators.show(operator as usize);
    Ok(format!("{count} {name}\n"))
}

/// The state after the step, as the file has it then.
pub fn commit(call: &Call) -> Result<Output, Failure> {
    let task = task(call)?;
    let count = number("COUNT", &call.arguments[2])?;
    let operator = task.operator(&call.arguments[3])?;
    let file = &call.arguments[1];
    let text = state_file::change(file, &task, |mut held| {
        let reply = kulabismuth::commit(
            &task.image,
            &mut held.atoms,
            &mut held.count,
            count,
            operator,
        );
        reply.answer().map_err(|refusal| {
            let words = match refusal.number {
                28 => refusal::of_ticket(count, held.count),
                _ => refusal::of_step(refusal, &task, &held.atoms, operator, None),
            };
            task.refused_as(refusal, words)
        })?;
        Ok(state::write(&held, &task.shown(call)))
    })?;
    Ok(Output {
        written: Some(file.clone()),
        ..Output::from(text)
    })
}
