//! Tasks in their two forms: `show` and `image`.

use crate::call::Call;
use crate::set::Set;
use crate::{input, library, refusal, Failure};
use kulabismuth::Refusal;
use task_text::task::TaskSpec;
use task_text::{words, writer, Names};

/// As many notes as are worth reading at once.
pub const MOST_NOTES: usize = 5;

/// A task as its file has it.
pub struct Task {
    pub image: Vec<u16>,
    pub names: Names,
    /// What looks wrong in its text, with the places.
    notes: Vec<String>,
}

impl Task {
    pub fn read(file: &str) -> Result<Task, Failure> {
        let text = input::text(file, input::bytes(file)?)?;
        let read = task_text::read_task(&text).map_err(|mistake| input::failure(file, &mistake))?;
        let notes = read.notes.iter().take(MOST_NOTES);
        let notes = notes.map(|note| input::located(file, note));
        Ok(Task {
            image: read.image,
            names: read.names,
            notes: notes.collect(),
        })
    }

    /// A task that the library has made.
    pub fn of(image: Vec<u16>, names: Names) -> Task {
        Task {
            image,
            names,
            notes: Vec::new(),
        }
    }

    /// The number of atoms that the image states.
    pub fn atoms(&self) -> u16 {
        self.image.first().copied().unwrap_or(0)
    }

    /// The names to print: none where numbers are asked for.
    pub fn shown(&self, call: &Call) -> Names {
        match call.has("--numbers") {
            true => Names::default(),
            false => self.names.clone(),
        }
    }

    /// A refusal of a call on this task.
    pub fn refused(&self, refusal: Refusal) -> Failure {
        self.refused_as(refusal, refusal::words(refusal, self, None))
    }

    /// A refusal of a call on this task and a clause set.
    pub fn refused_set(&self, refusal: Refusal, set: &Set) -> Failure {
        self.refused_as(refusal, refusal::words(refusal, self, Some(set)))
    }

    /// A refusal of a call on this task, a clause set and an operator.
    pub fn refused_operator(&self, refusal: Refusal, set: &Set, operator: u16) -> Failure {
        match refusal.number {
            19 => self.refused_as(
                refusal,
                format!("19: {}", refusal::no_operator(operator, self)),
            ),
            _ => self.refused_set(refusal, set),
        }
    }

    /// A refusal with these words, and what looked wrong in the text.
    pub fn refused_as(&self, refusal: Refusal, words: String) -> Failure {
        let of_image = refusal.number <= 7;
        let notes = self.notes.iter().filter(|_| of_image).cloned();
        Failure::Refused(refusal, vec![words]).with(notes)
    }

    /// An operator by its name or number.
    pub fn operator(&self, text: &str) -> Result<u16, Failure> {
        let number = self.names.operator(text);
        number.map_err(|text| Failure::Usage(format!("OPERATOR: {text}")))
    }
}

/// The task as a text with names.
pub fn show(call: &Call) -> Result<String, Failure> {
    let task = Task::read(&call.arguments[0])?;
    library::read(&task.image).map_err(|refusal| task.refused(refusal))?;
    Ok(writer::write(&TaskSpec::of_image(&task.image), &task.names))
}

/// The task as words with names in comments.
pub fn image(call: &Call) -> Result<String, Failure> {
    let task = Task::read(&call.arguments[0])?;
    library::read(&task.image).map_err(|refusal| task.refused(refusal))?;
    Ok(words::write(&task.image, &task.names))
}
