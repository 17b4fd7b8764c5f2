//! A list of operators run from the initial state: `run`.

use crate::call::Call;
use crate::set::Set;
use crate::task::Task;
use crate::{input, library, refusal, state_file, Failure, Output};
use kulabismuth::Reply;
use task_text::reencoded::Variables;
use task_text::state::{self, StateFile};
use task_text::{list, Names};

/// The re-encoded task beside the task.
struct Beside {
    set: Set,
    image: Vec<u16>,
    state: Vec<u16>,
}

impl Beside {
    fn start(file: &str, task: &Task) -> Result<Beside, Failure> {
        let set = Set::read(file, task)?;
        let image = library::reencode(&task.image, &set.rows);
        let image = image.map_err(|refusal| task.refused_set(refusal, &set))?;
        let mut state = vec![0; image[0].into()];
        done(kulabismuth::fdr_initial(&image, &mut state))?;
        Ok(Beside { set, image, state })
    }
}

/// The library has answered all that this call asks for this image.
fn done(reply: Reply) -> Result<u64, Failure> {
    let answer = reply.answer().map(|(first, _)| first);
    answer.map_err(|refusal| Failure::Inner(format!("unexpectedly {refusal}")))
}

pub fn run(call: &Call) -> Result<Output, Failure> {
    let task = Task::read(&call.arguments[0])?;
    let file = &call.arguments[1];
    let text = input::text(file, input::bytes(file)?)?;
    library::read(&task.image).map_err(|refusal| task.refused(refusal))?;
    let list = list::read(&text, &task.names).map_err(|mistake| input::failure(file, &mistake))?;
    let beside = call.option("--both").map(|file| Beside::start(file, &task));
    let run = Run {
        names: task.shown(call),
        state: vec![0; task.atoms().into()],
        beside: beside.transpose()?,
        task,
        text: String::new(),
    };
    run.along(&list, call.option("--state"))
}

/// A run so far: the states, and what is to be printed.
struct Run {
    task: Task,
    names: Names,
    state: Vec<u8>,
    beside: Option<Beside>,
    text: String,
}

impl Run {
    /// The run along a list; the state reached is written into the file.
    fn along(mut self, list: &[u16], file: Option<&str>) -> Result<Output, Failure> {
        done(kulabismuth::task_initial(&self.task.image, &mut self.state))?;
        self.show("initial".to_string());
        let (mut taken, mut refused) = (0, None);
        for &operator in list {
            refused = self.step(taken, operator)?;
            if refused.is_some() {
                break;
            }
            taken += 1;
        }
        let met = done(kulabismuth::task_goal(&self.task.image, &self.state))? == 1;
        self.text += if met { "goal met\n" } else { "goal not met\n" };
        self.compare(list)?;
        let mut output = self.output(list, refused)?;
        if let Some(file) = file {
            self.write(file, taken)?;
            output.written = Some(file.to_string());
        }
        Ok(output)
    }

    /// A step in the task and beside it. Refused, the words of the refusal.
    fn step(&mut self, number: usize, operator: u16) -> Result<Option<String>, Failure> {
        let reply = kulabismuth::task_step(&self.task.image, &mut self.state, operator);
        if let Some(beside) = &mut self.beside {
            let other = kulabismuth::fdr_step(&beside.image, &mut beside.state, operator);
            if other != reply {
                let text = "task and re-encoding answer a step differently";
                return Err(Failure::Inner(text.to_string()));
            }
        }
        let name = self.names.operators.show(operator.into());
        let Err(refusal) = reply.answer() else {
            self.show(format!("step {number} {name}"));
            return Ok(None);
        };
        self.text += &format!("step {number} {name}: refused\n");
        let words = refusal::of_step(refusal, &self.task, &self.state, operator, Some(number));
        Ok(Some(words))
    }

    /// A line with the true atoms, and the values beside them.
    fn show(&mut self, head: String) {
        let atoms = state::true_atoms(&self.state, &self.names);
        self.text += &format!("{head}:{atoms}");
        if let Some(beside) = &self.beside {
            let values = Variables::of(&beside.image, &self.names).state(&beside.state);
            self.text += &format!(" |{values}");
        }
        self.text += "\n";
    }

    /// The comparison of task and re-encoding along the whole list.
    fn compare(&mut self, list: &[u16]) -> Result<(), Failure> {
        let Some(beside) = &self.beside else {
            return Ok(());
        };
        let alike = library::agree(&self.task.image, &beside.set.rows, list);
        let alike = alike.map_err(|refusal| self.task.refused_set(refusal, &beside.set))?;
        if !alike {
            return Err(Failure::Inner("task and re-encoding differ".to_string()));
        }
        self.text += "alike\n";
        Ok(())
    }

    /// What is printed; for a refused step, the refusal of the list run.
    fn output(&self, list: &[u16], refused: Option<String>) -> Result<Output, Failure> {
        let Some(words) = refused else {
            return Ok(Output::from(self.text.clone()));
        };
        let mut state = vec![0; self.state.len()];
        done(kulabismuth::task_initial(&self.task.image, &mut state))?;
        let reply = kulabismuth::task_run(&self.task.image, &mut state, list);
        match reply.answer() {
            Err(refusal) => Ok(Output {
                status: 1,
                said: vec![words],
                ..Output::from(format!("{}{refusal}\n", self.text))
            }),
            Ok(_) => Err(Failure::Inner("steps and list run differ".to_string())),
        }
    }

    /// Writes the state reached, as if each step taken had been committed.
    fn write(&self, file: &str, taken: usize) -> Result<(), Failure> {
        let count = u16::try_from(taken).map_err(|_| {
            Failure::Usage(format!(
                "{file} is not written: {taken} steps were taken, and a commit count is at most 65535"
            ))
        })?;
        let atoms = self.state.clone();
        let text = state::write(&StateFile { count, atoms }, &self.names);
        state_file::write(file, &text)
    }
}
