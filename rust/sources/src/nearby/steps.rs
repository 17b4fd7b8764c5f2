//! Steps of a task and of a re-encoded task by rules near the right ones.

use inputs::fdr::{FdrOperatorSpec, FdrSpec, Pair};
use reference::literal::{all_true, Literal};
use reference::task::Task;
use reference::Refusal;

/// What a task step does with an atom that is both deleted and added.
#[derive(Clone, Copy, PartialEq, Eq, Debug)]
pub enum TaskStep {
    /// Document 02 §3: deletes are done before adds.
    Right,
    /// Adds are done before deletes.
    DeletesLast,
    /// Document 01: refused with 21.
    Conflict,
    /// A delete has no effect where the operator has an add row, fired or not.
    AnyAddBeats,
}

/// What a re-encoded step does with a set and a clear of one value.
#[derive(Clone, Copy, PartialEq, Eq, Debug)]
pub enum FdrStep {
    /// Document 02 §3: the clear gives way.
    Right,
    /// The variable is set, and then cleared if it has the value.
    ClearsLast,
    /// Document 01: refused with 21.
    Conflict,
    /// The last of two sets counts.
    LastSet,
}

fn refused(number: u32) -> Refusal {
    Refusal {
        number,
        first: 0,
        second: 0,
    }
}

/// The state after the listed steps, up to the first refused one, with its place.
pub fn run<T: Clone>(
    state: &[T],
    list: &[u16],
    apply: impl Fn(&[T], u16) -> Result<Vec<T>, Refusal>,
) -> (Vec<T>, Option<Refusal>) {
    let mut state = state.to_vec();
    for (place, &operator) in (0u64..).zip(list) {
        match apply(&state, operator) {
            Ok(next) => state = next,
            Err(refusal) => {
                let placed = Refusal {
                    first: place,
                    ..refusal
                };
                return (state, Some(placed));
            }
        }
    }
    (state, None)
}

impl TaskStep {
    pub const NEARBY: [TaskStep; 3] = [
        TaskStep::DeletesLast,
        TaskStep::Conflict,
        TaskStep::AnyAddBeats,
    ];

    /// The state after the step: questions 19 to 21.
    pub fn apply(self, task: &Task, state: &[u8], operator: u16) -> Result<Vec<u8>, Refusal> {
        if usize::from(operator) >= task.operators() {
            return Err(refused(19));
        }
        let operator = task.operator(usize::from(operator));
        if !all_true(operator.precondition, state) {
            return Err(refused(20));
        }
        let rows = operator.rows();
        let fired: Vec<Literal> = rows
            .filter(|row| all_true(row.conditions, state))
            .map(|row| row.effect)
            .collect();
        let fires = |effect: Literal| fired.contains(&effect);
        let any = |effect: Literal| operator.rows().any(|row| row.effect == effect);
        let next = |(atom, &byte): (u16, &u8)| {
            let (add, delete) = (Literal::new(atom, false), Literal::new(atom, true));
            match (fires(add), fires(delete), self) {
                (true, true, TaskStep::DeletesLast) => Ok(0),
                (true, true, TaskStep::Conflict) => Err(refused(21)),
                (false, true, TaskStep::AnyAddBeats) if any(add) => Ok(byte),
                (true, ..) => Ok(1),
                (false, true, _) => Ok(0),
                (false, false, _) => Ok(byte),
            }
        };
        (0u16..).zip(state).map(next).collect()
    }
}

fn holds(literals: &[Pair], state: &[u16]) -> bool {
    literals.iter().all(|&(variable, literal)| {
        let same = state[usize::from(variable)] == literal / 2;
        same == (literal % 2 == 0)
    })
}

impl FdrStep {
    pub const NEARBY: [FdrStep; 3] = [FdrStep::ClearsLast, FdrStep::Conflict, FdrStep::LastSet];

    /// The state after the step of a right image: questions 19 to 22.
    pub fn apply(self, spec: &FdrSpec, state: &[u16], operator: u16) -> Result<Vec<u16>, Refusal> {
        let operator = spec.operators.get(usize::from(operator));
        let operator = operator.ok_or(refused(19))?;
        if !holds(&operator.precondition, state) {
            return Err(refused(20));
        }
        let variables = 0..spec.domains.len();
        if variables
            .clone()
            .any(|variable| self.conflicts(operator, state, variable))
        {
            return Err(refused(21));
        }
        let next = |variable| {
            self.next(spec, operator, state, variable)
                .ok_or(refused(22))
        };
        variables.map(next).collect()
    }

    fn conflicts(self, operator: &FdrOperatorSpec, state: &[u16], variable: usize) -> bool {
        let sets = fired(operator, state, variable, 0);
        let clears = fired(operator, state, variable, 1);
        let two = sets.iter().any(|value| *value != sets[0]);
        two && self != FdrStep::LastSet
            || self == FdrStep::Conflict && sets.iter().any(|value| clears.contains(value))
    }

    /// The variable's next value; nothing if it is sent to an omitted none.
    fn next(
        self,
        spec: &FdrSpec,
        operator: &FdrOperatorSpec,
        state: &[u16],
        variable: usize,
    ) -> Option<u16> {
        let (values, none) = spec.domains[variable];
        let cleared = (none == 1).then(|| values - 1);
        let clears = fired(operator, state, variable, 1);
        match fired(operator, state, variable, 0).last() {
            Some(set) if self == FdrStep::ClearsLast && clears.contains(set) => cleared,
            Some(&set) => Some(set),
            None if clears.contains(&state[variable]) => cleared,
            None => Some(state[variable]),
        }
    }
}

/// The values of fired rows of this kind about the variable, in the rows' order.
fn fired(operator: &FdrOperatorSpec, state: &[u16], variable: usize, kind: u16) -> Vec<u16> {
    let about = |row: &&inputs::fdr::FdrRowSpec| {
        row.kind == kind && usize::from(row.variable) == variable && holds(&row.conditions, state)
    };
    operator
        .rows
        .iter()
        .filter(about)
        .map(|row| row.value)
        .collect()
}
