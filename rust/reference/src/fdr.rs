//! Finite-domain tasks: reading a re-encoded image (question 17), setting to
//! the initial state, steps, goal tests, list runs. In a step a clear gives way to
//! a set of the same value (document 02 §3).

use crate::answer::{ask, Answer, Refusal};
use crate::directory::{self, split_counted};

/// A re-encoded image that has passed question 17.
#[derive(Clone, Copy, Debug)]
pub struct FdrTask<'a> {
    image: &'a [u16],
    variables: usize,
    operators: usize,
}

/// A variable's domain: its number of values and whether the last is none.
#[derive(Clone, Copy, Debug)]
pub struct Domain {
    pub values: u16,
    pub none: bool,
}

/// What a fired row does to a variable and a value.
#[derive(Clone, Copy, PartialEq, Eq, Debug)]
pub enum Kind {
    Set,
    Clear,
}

/// The effect of a row.
#[derive(Clone, Copy, Debug)]
pub struct Effect {
    pub kind: Kind,
    pub variable: u16,
    pub value: u16,
}

struct Operator<'a> {
    precondition: &'a [u16],
    rows: &'a [u16],
}

struct Row<'a> {
    effect: Effect,
    conditions: &'a [u16],
}

/// Sets the lent state to the initial one: question 17, the length of 18.
pub fn initial(image: &[u16], state: &mut [u16]) -> Answer<()> {
    let task = read(image)?;
    ask(18, state.len() == task.variables)?;
    state.copy_from_slice(task.initial());
    Ok(())
}

/// Does one step in the lent state: questions 17 to 22.
pub fn step(image: &[u16], state: &mut [u16], operator: u16) -> Answer<()> {
    let task = read(image)?;
    task.ask_state(state)?;
    task.apply(state, operator, &mut Vec::new())
}

/// Whether the goal is met: questions 17 and 18.
pub fn goal(image: &[u16], state: &[u16]) -> Answer<bool> {
    let task = read(image)?;
    task.ask_state(state)?;
    Ok(all_true(task.goal(), state))
}

/// Does the listed steps in their order and gives their number. Refused among 19 to
/// 22, the first place is the number of steps taken, which are kept.
pub fn run(image: &[u16], state: &mut [u16], list: &[u16]) -> Answer<usize> {
    let task = read(image)?;
    task.ask_state(state)?;
    let mut fired = Vec::new();
    for (taken, &operator) in list.iter().enumerate() {
        task.apply(state, operator, &mut fired)
            .map_err(|refusal| Refusal {
                first: taken as u64,
                ..refusal
            })?;
    }
    Ok(list.len())
}

/// Reads a re-encoded image: question 17.
pub fn read(image: &[u16]) -> Answer<FdrTask<'_>> {
    let task = FdrTask::read(image);
    ask(17, task.is_some())?;
    Ok(task.expect("question 17 was asked"))
}

/// Whether all literals (variable, 2 times value, plus 1 if negated) are true.
fn all_true(words: &[u16], state: &[u16]) -> bool {
    words.chunks_exact(2).all(|literal| {
        let same = state[usize::from(literal[0])] == literal[1] / 2;
        same == (literal[1] % 2 == 0)
    })
}

impl<'a> FdrTask<'a> {
    fn read(image: &'a [u16]) -> Option<FdrTask<'a>> {
        let [variables, operators] = *image.first_chunk()?;
        let task = FdrTask {
            image,
            variables: usize::from(variables),
            operators: usize::from(operators),
        };
        let sized =
            image.len() <= 32_768 && (1..=1024).contains(&task.variables) && task.operators <= 1024;
        let right = sized
            && directory::is_right(image, task.operators + 4)
            && task.domains_are_right()
            && task.atoms_are_right()
            && task.literals_are_right(task.goal())
            && (0..task.operators).all(|number| task.block_is_right(task.block(number)));
        right.then_some(task)
    }

    pub fn variables(&self) -> usize {
        self.variables
    }

    pub fn operators(&self) -> usize {
        self.operators
    }

    /// For each atom its variable and value.
    pub fn atoms(&self) -> impl ExactSizeIterator<Item = (usize, u16)> + 'a {
        let pairs = directory::part(self.image, 1).chunks_exact(2);
        pairs.map(|pair| (usize::from(pair[0]), pair[1]))
    }

    pub fn domain(&self, variable: usize) -> Domain {
        let part = directory::part(self.image, 0);
        Domain {
            values: part[2 * variable],
            none: part[2 * variable + 1] == 1,
        }
    }

    fn initial(&self) -> &'a [u16] {
        directory::part(self.image, 2)
    }

    fn goal(&self) -> &'a [u16] {
        directory::part(self.image, 3)
    }

    fn block(&self, number: usize) -> &'a [u16] {
        directory::part(self.image, 4 + number)
    }

    /// Lengths of domains and initial values, none flags, initial values in range.
    fn domains_are_right(&self) -> bool {
        let domains = directory::part(self.image, 0);
        domains.len() == 2 * self.variables
            && domains.chunks_exact(2).all(|domain| domain[1] <= 1)
            && self.values_are_right(self.initial())
    }

    /// Whether the words are a value in range for each variable.
    fn values_are_right(&self, words: &[u16]) -> bool {
        let in_range = |(variable, &value)| value < self.domain(variable).values;
        words.len() == self.variables && words.iter().enumerate().all(in_range)
    }

    /// Whether there are 1 to 1,024 atoms and each atom value of each variable
    /// is given to exactly one: as many atoms as values, in range, none twice.
    fn atoms_are_right(&self) -> bool {
        let atoms = self.atoms();
        let even = directory::part(self.image, 1).len().is_multiple_of(2);
        let values = (0..self.variables).map(|v| usize::from(self.domain(v).atom_values()));
        if !even || !(1..=1024).contains(&atoms.len()) || values.sum::<usize>() != atoms.len() {
            return false;
        }
        let mut given: Vec<(usize, u16)> = atoms.collect();
        given.sort_unstable();
        given.windows(2).all(|pair| pair[0] != pair[1])
            && given.iter().all(|&(v, value)| self.is_atom_value(v, value))
    }

    fn is_atom_value(&self, variable: usize, value: u16) -> bool {
        variable < self.variables && value < self.domain(variable).atom_values()
    }

    /// Whether the words are literals that name atom values.
    fn literals_are_right(&self, words: &[u16]) -> bool {
        words.len().is_multiple_of(2)
            && words
                .chunks_exact(2)
                .all(|literal| self.is_atom_value(usize::from(literal[0]), literal[1] / 2))
    }

    fn block_is_right(&self, block: &[u16]) -> bool {
        let Some(operator) = Operator::read(block) else {
            return false;
        };
        self.literals_are_right(operator.precondition)
            && operator.rows().all(|row| {
                let effect = row.effect;
                self.is_atom_value(usize::from(effect.variable), effect.value)
                    && self.literals_are_right(row.conditions)
            })
    }

    /// Question 18: a value in range for each variable.
    pub(crate) fn ask_state(&self, state: &[u16]) -> Answer<()> {
        ask(18, self.values_are_right(state))
    }

    /// Applies an operator to a state of this task: questions 19 to 22. `fired`
    /// is scratch space.
    pub fn apply(&self, state: &mut [u16], operator: u16, fired: &mut Vec<Effect>) -> Answer<()> {
        ask(19, usize::from(operator) < self.operators)?;
        let operator = Operator::read(self.block(usize::from(operator)))
            .expect("question 17 was asked of every block");
        ask(20, all_true(operator.precondition, state))?;
        fired.clear();
        fired.extend(
            operator
                .rows()
                .filter(|row| all_true(row.conditions, state))
                .map(|row| row.effect),
        );
        fired.sort_unstable_by_key(|effect| effect.variable);
        let by_variable = || fired.chunk_by(|a, b| a.variable == b.variable);
        ask(21, !by_variable().any(sets_two_values))?;
        ask(
            22,
            by_variable().all(|effects| self.next(effects, state).is_some()),
        )?;
        for effects in by_variable() {
            if let Some(value) = self.next(effects, state) {
                state[usize::from(effects[0].variable)] = value;
            }
        }
        Ok(())
    }

    /// The next value of the one variable these fired effects are about; `None`
    /// if it is sent to an omitted none. A set counts before every clear.
    fn next(&self, effects: &[Effect], state: &[u16]) -> Option<u16> {
        let variable = usize::from(effects[0].variable);
        let present = state[variable];
        if let Some(set) = effects.iter().find(|effect| effect.kind == Kind::Set) {
            return Some(set.value);
        }
        let cleared = effects.iter().any(|effect| effect.value == present);
        if cleared {
            self.domain(variable).none_value()
        } else {
            Some(present)
        }
    }
}

/// Whether the effects, all on one variable, set it to two values.
fn sets_two_values(effects: &[Effect]) -> bool {
    let sets = || effects.iter().filter(|effect| effect.kind == Kind::Set);
    sets()
        .zip(sets().skip(1))
        .any(|(set, next)| set.value != next.value)
}

impl Domain {
    /// The number of values that stand for an atom.
    pub fn atom_values(&self) -> u16 {
        self.values.saturating_sub(u16::from(self.none))
    }

    /// None, the last value, unless it is omitted.
    pub fn none_value(&self) -> Option<u16> {
        self.none.then(|| self.atom_values())
    }
}

impl Kind {
    fn read(word: u16) -> Option<Kind> {
        match word {
            0 => Some(Kind::Set),
            1 => Some(Kind::Clear),
            _ => None,
        }
    }
}

impl<'a> Operator<'a> {
    /// Takes a block apart; `None` if its counts do not end at the block's end
    /// or a kind is neither 0 nor 1.
    fn read(block: &'a [u16]) -> Option<Operator<'a>> {
        let (precondition, rest) = split_counted(block, 2)?;
        let (&count, rows) = rest.split_first()?;
        let mut remaining = rows;
        for _ in 0..count {
            remaining = split_row(remaining)?.1;
        }
        remaining
            .is_empty()
            .then_some(Operator { precondition, rows })
    }

    fn rows(&self) -> impl Iterator<Item = Row<'a>> {
        let mut words = self.rows;
        std::iter::from_fn(move || {
            let (row, remaining) = split_row(words)?;
            words = remaining;
            Some(row)
        })
    }
}

/// Takes one row from the front: kind, variable, value, counted conditions.
fn split_row(words: &[u16]) -> Option<(Row<'_>, &[u16])> {
    let (&[kind, variable, value], rest) = words.split_first_chunk()?;
    let (conditions, remaining) = split_counted(rest, 2)?;
    let effect = Effect {
        kind: Kind::read(kind)?,
        variable,
        value,
    };
    Some((Row { effect, conditions }, remaining))
}
