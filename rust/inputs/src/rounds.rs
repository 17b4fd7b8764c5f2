//! Tasks of any size whose synthesis makes many rounds.

use crate::task::{no, yes, OperatorSpec, TaskSpec};

/// Each atom makes the next one true, and the last one makes the first false.
/// Synthesis with n = 1 loses one of the N first clauses in each round: N + 1 rounds.
pub fn chain(atoms: u16) -> TaskSpec {
    let last = atoms - 1;
    let mut operators: Vec<OperatorSpec> = (0..last).map(make_next_true).collect();
    operators.push(OperatorSpec::strips(&[yes(last)], &[no(0)]));
    TaskSpec {
        atoms,
        initial: vec![0],
        goal: vec![no(0)],
        operators,
    }
}

/// The atom makes the next one true.
fn make_next_true(atom: u16) -> OperatorSpec {
    OperatorSpec::strips(&[yes(atom)], &[yes(atom + 1)])
}

/// Goes through states one after another, each of which makes a clause of at most n
/// literals false that is true in all before it: synthesis with this n makes a round
/// for each. There is a state for each set of at most n atoms. The precondition of an
/// operator is a whole state.
pub fn walk(atoms: u16, n: usize) -> TaskSpec {
    let sets = sets(atoms, n);
    let states: Vec<Vec<u16>> = sets.iter().map(|set| walk_state(atoms, set)).collect();
    let operators = states.windows(2).map(|pair| {
        let mut effects = pair[1].clone();
        effects.retain(|literal| !pair[0].contains(literal));
        OperatorSpec::strips(&pair[0], &effects)
    });
    TaskSpec {
        atoms,
        initial: Vec::new(),
        goal: states[states.len() - 1].clone(),
        operators: operators.collect(),
    }
}

/// The sets of at most `most` atoms as ascending lists: by size, then in order.
fn sets(atoms: u16, most: usize) -> Vec<Vec<u16>> {
    let mut of_size = vec![Vec::new()];
    let mut all = of_size.clone();
    for _ in 0..most {
        let larger = |set: &Vec<u16>| {
            let first = set.last().map_or(0, |last| last + 1);
            let with = |atom| [&set[..], &[atom]].concat();
            (first..atoms).map(with).collect::<Vec<_>>()
        };
        of_size = of_size.iter().flat_map(larger).collect();
        all.extend(of_size.clone());
    }
    all
}

/// The literals true in a set's state: the atoms up to its last one are true, but for
/// its other members. In no state of an earlier set are those false and the last true.
fn walk_state(atoms: u16, set: &[u16]) -> Vec<u16> {
    let is_true = |atom: &u16| match set.split_last() {
        None => false,
        Some((last, others)) => atom <= last && !others.contains(atom),
    };
    let literal = |atom| if is_true(&atom) { yes(atom) } else { no(atom) };
    (0..atoms).map(literal).collect()
}

/// The states of the walk for n = 2, by fewer operators with shorter preconditions. In
/// any state an atom makes the next one true; where one atom is false and all after it
/// are true, the walk goes on with the states in which the next atom is false.
pub fn walk_of_pairs(atoms: u16) -> TaskSpec {
    let all: Vec<u16> = (0..atoms).map(yes).collect();
    let none: Vec<u16> = (0..atoms).map(no).collect();
    let mut operators = vec![
        OperatorSpec::strips(&none, &[yes(0)]),
        OperatorSpec::strips(&all, &make_false(atoms, 0)),
    ];
    operators.extend((0..atoms - 1).map(make_next_true));
    operators.extend((1..atoms - 1).map(|atom| {
        let mut effects = make_false(atoms, atom);
        effects.push(yes(atom - 1));
        OperatorSpec::strips(&[no(atom - 1), yes(atoms - 1)], &effects)
    }));
    TaskSpec {
        atoms,
        initial: Vec::new(),
        goal: vec![no(atoms - 2), yes(atoms - 1)],
        operators,
    }
}

/// The atom and all after it but the next are made false.
fn make_false(atoms: u16, atom: u16) -> Vec<u16> {
    let mut effects = vec![no(atom)];
    effects.extend((atom + 2..atoms).map(no));
    effects
}

/// Counts up, with up to three digits of so many values each, the lowest first. A digit
/// goes to its next value where those before it have their last, and these go back to
/// their first. Synthesis with n the number of digits makes a round for each number.
pub fn counter(digits: &[u16]) -> TaskSpec {
    let first = |digit| digits[..digit].iter().sum::<u16>();
    let last = |digit| first(digit) + digits[digit] - 1;
    let mut operators = Vec::new();
    for digit in 0..digits.len() {
        for value in first(digit)..last(digit) {
            let mut precondition = vec![yes(value)];
            let mut effects = vec![no(value), yes(value + 1)];
            for before in 0..digit {
                precondition.push(yes(last(before)));
                effects.extend([no(last(before)), yes(first(before))]);
            }
            if digit == 0 && digits.len() == 3 {
                operators.extend(at_each(first(1)..first(2), value, &effects));
            } else {
                operators.push(OperatorSpec::strips(&precondition, &effects));
            }
        }
    }
    TaskSpec {
        atoms: first(digits.len()),
        initial: (0..digits.len()).map(first).collect(),
        goal: (0..digits.len()).map(|digit| yes(last(digit))).collect(),
        operators,
    }
}

/// An operator for each value of the second digit: only a precondition with two
/// literals of a clause of three decides the third.
fn at_each(
    second: std::ops::Range<u16>,
    value: u16,
    effects: &[u16],
) -> impl Iterator<Item = OperatorSpec> + '_ {
    second.map(move |other| OperatorSpec::strips(&[yes(value), yes(other)], effects))
}
