//! Mutex groups: the variables and domains of the re-encoding.

use crate::answer::{ask, Answer};
use crate::checker::accepted;
use crate::clause::Clause;
use crate::literal::Literal;

/// The groups of an accepted set; group = variable, an atom's value is its
/// place in the group.
#[derive(Clone, PartialEq, Eq, Debug)]
pub struct Groups {
    pub groups: Vec<Group>,
    /// For each atom its variable and its value.
    pub atoms: Vec<(u16, u16)>,
}

/// A group's atoms, ascending, and whether "none" is among its values.
#[derive(Clone, PartialEq, Eq, Debug)]
pub struct Group {
    pub members: Vec<u16>,
    pub none: bool,
}

/// Writes the domains part, then the atoms part: the checker's questions, 16.
/// The answer is the number of variables.
pub fn groups(
    image: &[u16],
    clauses: &[u16],
    marks: &mut [u8],
    target: &mut [u16],
) -> Answer<usize> {
    let (task, clauses) = accepted(image, clauses, marks)?;
    let groups = form(task.atoms(), &clauses);
    let words: Vec<u16> = groups.domain_words().chain(groups.atom_words()).collect();
    ask(16, words.len() <= target.len())?;
    target[..words.len()].copy_from_slice(&words);
    Ok(groups.groups.len())
}

impl Groups {
    /// For each variable its number of values and whether none is one.
    pub fn domain_words(&self) -> impl Iterator<Item = u16> + '_ {
        self.groups.iter().flat_map(|group| {
            let none = u16::from(group.none);
            [group.members.len() as u16 + none, none]
        })
    }

    /// For each atom its variable and value.
    pub fn atom_words(&self) -> impl Iterator<Item = u16> + '_ {
        self.atoms
            .iter()
            .flat_map(|&(variable, value)| [variable, value])
    }
}

/// The groups of the set: each atom, ascending, joins the lowest group all of
/// whose members are mutex with it, else it opens the next group.
pub fn form(atoms: usize, clauses: &[Clause]) -> Groups {
    let mut formed = Groups {
        groups: Vec::new(),
        atoms: Vec::with_capacity(atoms),
    };
    let never = never_true(atoms, clauses);
    let mutex = |a: u16, b: u16| {
        let pair = Clause::new(&[Literal::new(a, true), Literal::new(b, true)]);
        never[usize::from(a)] || never[usize::from(b)] || clauses.binary_search(&pair).is_ok()
    };
    for atom in 0..atoms as u16 {
        let joins = |group: &Group| group.members.iter().all(|&member| mutex(member, atom));
        let variable = formed.groups.iter().position(joins);
        let variable = variable.unwrap_or_else(|| {
            formed.groups.push(Group {
                members: Vec::new(),
                none: true,
            });
            formed.groups.len() - 1
        });
        let members = &mut formed.groups[variable].members;
        formed.atoms.push((variable as u16, members.len() as u16));
        members.push(atom);
    }
    omit_none(&mut formed, clauses);
    formed
}

/// For each atom whether the set has the clause that it is false.
fn never_true(atoms: usize, clauses: &[Clause]) -> Vec<bool> {
    let negative = |atom| Clause::new(&[Literal::new(atom, true)]);
    (0..atoms as u16)
        .map(|atom| clauses.binary_search(&negative(atom)).is_ok())
        .collect()
}

/// Omits "none" where a clause of positive literals lies in one group.
fn omit_none(formed: &mut Groups, clauses: &[Clause]) {
    for clause in clauses {
        if clause.literals().any(|literal| literal.is_negated()) {
            continue;
        }
        let variable_of = |literal: Literal| formed.atoms[literal.atom()].0;
        let variable = variable_of(Literal(clause.words()[0]));
        if clause
            .literals()
            .all(|literal| variable_of(literal) == variable)
        {
            formed.groups[usize::from(variable)].none = false;
        }
    }
}
