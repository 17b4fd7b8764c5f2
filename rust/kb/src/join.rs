//! Two tasks joined: `join`.

use crate::call::Call;
use crate::set::Set;
use crate::task::Task;
use crate::{library, refusal, Failure};
use kulabismuth::Refusal;
use task_text::task::TaskSpec;
use task_text::{writer, Names};

pub fn join(call: &Call) -> Result<String, Failure> {
    let (left, right) = (
        Task::read(&call.arguments[0])?,
        Task::read(&call.arguments[1])?,
    );
    let image = library::join(&left.image, &right.image);
    let image = image.map_err(|refusal| refused(refusal, &left, &right))?;
    let names = left.names.join(&right.names);
    let sets = match &call.arguments[2..] {
        [first, second] => Some([Set::read(first, &left)?, Set::read(second, &right)?]),
        _ => None,
    };
    let mut text = String::new();
    if call.has("--task") || !call.has("--clauses") {
        text += &writer::write(&TaskSpec::of_image(&image), &names);
    }
    let union_asked = call.has("--clauses") || !call.has("--task");
    if let Some(sets) = sets.filter(|_| union_asked) {
        let shown = match call.has("--numbers") {
            true => Names::default(),
            false => names.clone(),
        };
        let union = union(&image, names, left.image[0], &sets)?;
        let (count, lines) = (union.count(), union.lines(&shown));
        text += &format!("# the union of both sets: {count} clauses, accepted\n{lines}");
    }
    Ok(text)
}

/// The first's rows, and the second's behind the first's atoms; accepted.
fn union(image: &[u16], names: Names, atoms: u16, sets: &[Set; 2]) -> Result<Set, Failure> {
    let shift = |&word: &u16| match word {
        library::FILL => word,
        literal => literal + 2 * atoms,
    };
    let second: Vec<u16> = sets[1].rows.iter().map(shift).collect();
    let set = Set::of([&sets[0].rows[..], &second].concat());
    let joined = Task::of(image.to_vec(), names);
    let checked = library::check(image, &set.rows);
    checked.map_err(|refusal| {
        let (clause, firsts) = (refusal.first as usize, sets[0].count());
        let place = match refusal.number {
            10 | 11 if clause < firsts => sets[0].place(clause),
            10 | 11 => sets[1].place(clause - firsts),
            _ => String::new(),
        };
        let words = refusal::words(refusal, &joined, Some(&set));
        joined.refused_as(refusal, words + &place)
    })?;
    Ok(set)
}

/// A refusal of one of the images, or by question 27.
fn refused(refusal: Refusal, left: &Task, right: &Task) -> Failure {
    if refusal.number == 27 {
        let sum = |place: usize| usize::from(left.image[place]) + usize::from(right.image[place]);
        let words = left.image.len() + right.image.len() - 6;
        let text = format!(
            "27: the joined task would have {} atoms, {} operators and {words} words; 1024, 1024 and 8192 are the most",
            sum(0),
            sum(1)
        );
        return left.refused_as(refusal, text);
    }
    let (which, task) = match library::read(&left.image) {
        Err(_) => ("first", left),
        Ok(()) => ("second", right),
    };
    let said = format!("this is said of the {which} task");
    task.refused(refusal).with([said].into_iter())
}
