//! Kept clauses, guaranteed literals and synthesis under a rule given by its parts.

use std::collections::BTreeSet;

use reference::clause::Clause;
use reference::closure::Closure;
use reference::literal::Literal;
use reference::task::{Operator, Row, Task};

/// What keeps a delete row, its conditions in K, from making an atom false.
#[derive(Clone, Copy, PartialEq, Eq, Debug)]
pub enum Against {
    /// An add row of the atom that does not make the closure contradictory.
    CanFire,
    /// The same, its conditions added to the precondition's closure instead of K.
    CanFireAlone,
    /// Any add row of the atom.
    Any,
    /// Nothing: document 01's rule.
    Nothing,
}

/// When a case passes because a row makes its own literal true again.
#[derive(Clone, Copy, PartialEq, Eq, Debug)]
pub enum AlsoPasses {
    Positive,
    Either,
    Never,
}

#[derive(Clone, Copy, PartialEq, Eq, Debug)]
pub struct Rule {
    pub against: Against,
    pub also_passes: AlsoPasses,
    /// Whether a delete row counts in "stays" though an add row fires with it.
    pub beaten_counts: bool,
}

/// Document 02 §3.
pub const RIGHT: Rule = Rule {
    against: Against::CanFire,
    also_passes: AlsoPasses::Positive,
    beaten_counts: true,
};

/// A rule near it, and where it answers otherwise.
#[derive(Clone, Copy, Debug)]
pub struct Nearby {
    pub name: &'static str,
    pub rule: Rule,
    /// Whether it keeps clauses that can break.
    pub unsound: bool,
    /// Whether it differs in guaranteed literals too, and not in kept clauses alone.
    pub guarantees_otherwise: bool,
}

pub const NEARBY: [Nearby; 6] = [
    Nearby {
        name: "a delete row suffices",
        rule: Rule {
            against: Against::Nothing,
            ..RIGHT
        },
        unsound: true,
        guarantees_otherwise: true,
    },
    Nearby {
        name: "no add row at all",
        rule: Rule {
            against: Against::Any,
            ..RIGHT
        },
        unsound: false,
        guarantees_otherwise: true,
    },
    Nearby {
        name: "add rows without K",
        rule: Rule {
            against: Against::CanFireAlone,
            ..RIGHT
        },
        unsound: false,
        guarantees_otherwise: false,
    },
    Nearby {
        name: "no case also passes",
        rule: Rule {
            also_passes: AlsoPasses::Never,
            ..RIGHT
        },
        unsound: false,
        guarantees_otherwise: false,
    },
    Nearby {
        name: "negative cases also pass",
        rule: Rule {
            also_passes: AlsoPasses::Either,
            ..RIGHT
        },
        unsound: true,
        guarantees_otherwise: false,
    },
    Nearby {
        name: "a beaten delete does not count",
        rule: Rule {
            beaten_counts: false,
            ..RIGHT
        },
        unsound: false,
        guarantees_otherwise: true,
    },
];

/// A set and an operator, with the closure of the set and the precondition.
struct Under<'a> {
    rule: Rule,
    set: &'a [Clause],
    operator: Operator<'a>,
    base: Closure,
}

impl Rule {
    fn under<'a>(self, task: &Task<'a>, set: &'a [Clause], operator: usize) -> Under<'a> {
        let operator = task.operator(operator);
        let base = Closure::new(task.atoms(), set, operator.precondition);
        Under {
            rule: self,
            set,
            operator,
            base,
        }
    }

    /// Whether the set keeps the clause under the operator.
    pub fn keeps(self, task: &Task, set: &[Clause], clause: &Clause, operator: usize) -> bool {
        let under = self.under(task, set, operator);
        let falsifying = |row: &Row| clause.contains(row.effect.complement());
        under.base.is_contradictory()
            || under
                .operator
                .rows()
                .filter(falsifying)
                .all(|row| under.passes(clause, &row))
    }

    /// The literals that the operator guarantees.
    pub fn guaranteed(self, task: &Task, set: &[Clause], operator: usize) -> Vec<Literal> {
        let under = self.under(task, set, operator);
        (0..2 * task.atoms() as u16)
            .map(Literal)
            .filter(|&literal| under.becomes_true(&under.base, literal))
            .collect()
    }
}

impl Under<'_> {
    fn rows(&self, effect: Literal) -> impl Iterator<Item = Row<'_>> {
        self.operator.rows().filter(move |row| row.effect == effect)
    }

    /// The case of the row and the literal that it falsifies.
    fn passes(&self, clause: &Clause, row: &Row) -> bool {
        let k = self.base.extended(self.set, row.conditions);
        let own = row.effect.complement();
        let may = match self.rule.also_passes {
            AlsoPasses::Positive => !own.is_negated(),
            AlsoPasses::Either => true,
            AlsoPasses::Never => false,
        };
        k.is_contradictory()
            || may && self.fires(&k, own)
            || clause
                .literals()
                .any(|other| other != own && self.becomes_true(&k, other))
    }

    fn becomes_true(&self, k: &Closure, literal: Literal) -> bool {
        let made = self.fires(k, literal) && (!literal.is_negated() || self.unbeaten(k, literal));
        made || k.holds(literal) && self.stays(k, literal)
    }

    /// Whether a row with the effect has its conditions in the closure.
    fn fires(&self, k: &Closure, effect: Literal) -> bool {
        self.rows(effect).any(|row| k.holds_all(row.conditions))
    }

    /// Whether no add row speaks against the negative literal.
    fn unbeaten(&self, k: &Closure, literal: Literal) -> bool {
        let mut adds = self.rows(literal.complement());
        let contradicts = |from: &Closure, row: &Row| {
            let closure = from.extended(self.set, row.conditions);
            closure.is_contradictory()
        };
        match self.rule.against {
            Against::CanFire => adds.all(|row| contradicts(k, &row)),
            Against::CanFireAlone => adds.all(|row| contradicts(&self.base, &row)),
            Against::Any => adds.next().is_none(),
            Against::Nothing => true,
        }
    }

    fn stays(&self, k: &Closure, literal: Literal) -> bool {
        self.rows(literal.complement()).all(|row| {
            let with = k.extended(self.set, row.conditions);
            let beaten = !literal.is_negated() && self.fires(&with, literal);
            with.is_contradictory() || beaten && !self.rule.beaten_counts
        })
    }
}

/// The set that synthesis finds and its rounds, with one rule for kept clauses and
/// one for guaranteed literals.
pub fn synthesis(task: &Task, n: usize, kept: Rule, guaranteed: Rule) -> (Vec<Clause>, usize) {
    let initial = task.initial_state();
    let first = |(atom, &byte): (u16, &u8)| Clause::new(&[Literal::new(atom, byte == 0)]);
    let mut set: Vec<Clause> = (0u16..).zip(&initial).map(first).collect();
    for rounds in 1.. {
        let next = weakened(task, n, kept, guaranteed, &set);
        if set.iter().all(|clause| next.contains(clause)) {
            return (set, rounds);
        }
        let contains_other =
            |clause: &Clause| clause.proper_parts().any(|part| next.contains(&part));
        set = next
            .iter()
            .filter(|clause| !contains_other(clause))
            .copied()
            .collect();
    }
    unreachable!("each failing round leaves fewer clauses possible")
}

/// The set after one round, before clauses that contain others are dropped: each clause
/// that fails under an operator gives way to those of up to `n` literals that have one
/// more, which the operator guarantees.
fn weakened(
    task: &Task,
    n: usize,
    kept: Rule,
    guaranteed: Rule,
    set: &[Clause],
) -> BTreeSet<Clause> {
    let mut next: BTreeSet<Clause> = set.iter().copied().collect();
    for clause in set {
        let fails = |&operator: &usize| !kept.keeps(task, set, clause, operator);
        for operator in (0..task.operators()).filter(fails) {
            next.remove(clause);
            let literals = guaranteed.guaranteed(task, set, operator);
            let new = |literal: &Literal| clause.size() < n && !clause.has_atom(literal.atom());
            next.extend(literals.into_iter().filter(new).map(|new| clause.with(new)));
        }
    }
    next
}
