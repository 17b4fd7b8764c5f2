//! Commands on a task and a clause set: `check`, `kept`, `closure`, `dimacs`.

use crate::call::Call;
use crate::set::Set;
use crate::task::Task;
use crate::{card, input, library, Failure};
use task_text::clauses;

/// The task and the set of a call's first two arguments.
fn task_and_set(call: &Call) -> Result<(Task, Set), Failure> {
    let task = Task::read(&call.arguments[0])?;
    let set = Set::read(&call.arguments[1], &task)?;
    Ok((task, set))
}

pub fn check(call: &Call) -> Result<String, Failure> {
    let (task, set) = task_and_set(call)?;
    let answer = library::check(&task.image, &set.rows);
    answer.map_err(|refusal| task.refused_set(refusal, &set))?;
    Ok("accepted\n".to_string())
}

pub fn kept(call: &Call) -> Result<String, Failure> {
    let (task, set) = task_and_set(call)?;
    let row = one_row(&call.arguments[2], &task, &set)?;
    let operator = task.operator(&call.arguments[3])?;
    let kept = library::kept(&task.image, &set.rows, &row, operator);
    let kept = kept.map_err(|refusal| task.refused_operator(refusal, &set, operator))?;
    Ok(if kept { "kept\n" } else { "not kept\n" }.to_string())
}

/// The row of a clause that is written out, or of a clause of the set by its number.
fn one_row(text: &str, task: &Task, set: &Set) -> Result<Vec<u16>, Failure> {
    let wrong = |text: &str| Failure::Usage(format!("CLAUSE: {text}"));
    if !text.is_empty() && text.bytes().all(|byte| byte.is_ascii_digit()) {
        let row = text.parse().ok().and_then(|number| set.row(number));
        return row.ok_or_else(|| wrong(&format!("there is no clause {text} in the set")));
    }
    let file = clauses::read(text, &task.names, task.atoms());
    let file = file.map_err(|mistake| wrong(&mistake.text))?;
    if file.clauses.len() != 1 {
        return Err(wrong("one clause is expected"));
    }
    let notes = file
        .notes
        .iter()
        .map(|note| format!("CLAUSE: {}", note.text));
    Set::of_lines(&file, task).map_err(|failure| failure.with(notes))
}

pub fn closure(call: &Call) -> Result<String, Failure> {
    let (task, set) = task_and_set(call)?;
    let operator = task.operator(&call.arguments[2])?;
    let literals = library::closure(&task.image, &set.rows, operator);
    let literals = literals.map_err(|refusal| task.refused_operator(refusal, &set, operator))?;
    let names = task.shown(call);
    let clashing = literals
        .windows(2)
        .filter(|pair| pair[0] / 2 == pair[1] / 2);
    let clashing: Vec<String> = clashing
        .map(|pair| names.atoms.show((pair[0] / 2).into()))
        .collect();
    let verdict = match clashing[..] {
        [] => "not contradictory".to_string(),
        _ => format!("contradictory: {}", clashing.join(" ")),
    };
    let shown: String = literals
        .iter()
        .map(|&l| names.show_literal(l) + "\n")
        .collect();
    Ok(format!("literals {}\n{shown}{verdict}\n", literals.len()))
}

pub fn dimacs(call: &Call) -> Result<String, Failure> {
    let (task, set) = match call.arguments.len() {
        2 => task_and_set(call)?,
        _ => card::find(call)?,
    };
    let text = library::write_dimacs(&task.image, &set.rows);
    let text = text.map_err(|refusal| task.refused_set(refusal, &set))?;
    input::text("the library's text", text)
}
