//! Reading a task image: questions 1 to 7.

use crate::answer::{ask, ask_at, Answer};
use crate::directory::{self, split_counted};
use crate::literal::{is_literal_list, Literal};

/// A task image that has passed questions 1 to 7.
#[derive(Clone, Copy, Debug)]
pub struct Task<'a> {
    image: &'a [u16],
    atoms: usize,
    operators: usize,
}

/// An operator's block taken apart: its precondition and the words of its rows.
#[derive(Clone, Copy, Debug)]
pub struct Operator<'a> {
    pub precondition: &'a [u16],
    row_count: u16,
    rows: &'a [u16],
}

/// An effect row: its effect becomes true if all its conditions hold.
#[derive(Clone, Copy, Debug)]
pub struct Row<'a> {
    pub effect: Literal,
    pub conditions: &'a [u16],
}

/// Reads an image: questions 1 to 7.
pub fn read(image: &[u16]) -> Answer<Task<'_>> {
    ask(1, (6..=8192).contains(&image.len()))?;
    let task = Task {
        image,
        atoms: usize::from(image[0]),
        operators: usize::from(image[1]),
    };
    ask(
        2,
        (1..=1024).contains(&task.atoms) && task.operators <= 1024,
    )?;
    ask(3, directory::is_right(image, task.operators + 2))?;
    ask(4, is_atom_list(task.initial(), task.atoms))?;
    ask(5, is_literal_list(task.goal(), task.atoms))?;
    for number in 0..task.operators {
        let operator = Operator::read(task.block(number));
        ask_at(6, operator.is_some(), number, 0)?;
        let right = operator.is_some_and(|operator| operator.is_right(task.atoms));
        ask_at(7, right, number, 0)?;
    }
    Ok(task)
}

fn is_atom_list(words: &[u16], atoms: usize) -> bool {
    words.last().is_none_or(|&last| usize::from(last) < atoms)
        && words.windows(2).all(|pair| pair[0] < pair[1])
}

impl<'a> Task<'a> {
    pub fn atoms(&self) -> usize {
        self.atoms
    }

    pub fn operators(&self) -> usize {
        self.operators
    }

    /// The atoms true in the initial state.
    pub fn initial(&self) -> &'a [u16] {
        directory::part(self.image, 0)
    }

    pub fn goal(&self) -> &'a [u16] {
        directory::part(self.image, 1)
    }

    /// The number of words of all its parts.
    pub(crate) fn part_words(&self) -> usize {
        self.image.len() - directory::head_words(self.operators + 2)
    }

    fn block(&self, number: usize) -> &'a [u16] {
        directory::part(self.image, 2 + number)
    }

    pub fn operator(&self, number: usize) -> Operator<'a> {
        Operator::read(self.block(number)).expect("question 6 was asked of every block")
    }

    pub fn all_operators(&self) -> impl Iterator<Item = Operator<'a>> + '_ {
        (0..self.operators).map(|number| self.operator(number))
    }

    /// The operators for one walk over each: question 6 is not asked anew.
    pub(crate) fn split_operators(&self) -> impl Iterator<Item = Operator<'a>> + '_ {
        let blocks = (0..self.operators).map(|number| self.block(number));
        blocks.map(|block| Operator::split(block).expect("question 6 was asked of every block"))
    }

    /// The initial state as bytes.
    pub fn initial_state(&self) -> Vec<u8> {
        let mut state = vec![0; self.atoms];
        for &atom in self.initial() {
            state[usize::from(atom)] = 1;
        }
        state
    }
}

impl<'a> Operator<'a> {
    /// Takes a block apart; `None` if its counts do not end at the block's end.
    fn read(block: &'a [u16]) -> Option<Operator<'a>> {
        let operator = Operator::split(block)?;
        let mut remaining = operator.rows;
        for _ in 0..operator.row_count {
            remaining = split_row(remaining)?.1;
        }
        remaining.is_empty().then_some(operator)
    }

    /// Takes a block apart without a look at the rows.
    fn split(block: &'a [u16]) -> Option<Operator<'a>> {
        let (precondition, rest) = split_counted(block, 1)?;
        let (&row_count, rows) = rest.split_first()?;
        Some(Operator {
            precondition,
            row_count,
            rows,
        })
    }

    /// Question 7.
    fn is_right(&self, atoms: usize) -> bool {
        is_literal_list(self.precondition, atoms)
            && self
                .rows()
                .all(|row| row.effect.index() < 2 * atoms && is_literal_list(row.conditions, atoms))
    }

    pub fn row_count(&self) -> u16 {
        self.row_count
    }

    pub fn rows(&self) -> impl Iterator<Item = Row<'a>> {
        let mut words = self.rows;
        std::iter::from_fn(move || {
            let (row, remaining) = split_row(words)?;
            words = remaining;
            Some(row)
        })
    }
}

/// Takes one effect row from the front.
fn split_row(words: &[u16]) -> Option<(Row<'_>, &[u16])> {
    let (&effect, rest) = words.split_first()?;
    let (conditions, remaining) = split_counted(rest, 1)?;
    let row = Row {
        effect: Literal(effect),
        conditions,
    };
    Some((row, remaining))
}
