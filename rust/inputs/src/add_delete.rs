//! Tasks whose operators add and delete one atom (document 02 §3), with clauses to
//! be judged under them, and re-encoded tasks whose operators set and clear one value.

use crate::clauses::{literals, random_row, random_set, row, Row};
use crate::fdr::{foreign, FdrOperatorSpec, FdrRowSpec, FdrSpec, Pair};
use crate::random::{literal, literal_list};
use crate::task::{no, yes, OperatorSpec, RowSpec, TaskSpec};
use crate::Rng;

/// A task of few atoms and operators; its goal is often about an atom that an
/// operator adds and deletes.
pub fn task(rng: &mut Rng) -> TaskSpec {
    let atoms = rng.between(1, 4);
    let operators: Vec<OperatorSpec> = (0..rng.between(1, 4))
        .map(|_| any_operator(rng, atoms))
        .collect();
    let percent = *rng.pick(&[20, 50, 80]);
    TaskSpec {
        atoms: atoms as u16,
        initial: (0..atoms as u16).filter(|_| rng.chance(percent)).collect(),
        goal: goal(rng, atoms, &operators),
        operators,
    }
}

/// A task in which a clause of the first set often fails late in synthesis: under an
/// operator that adds and deletes an atom, and whose precondition is false at first.
pub fn late_task(rng: &mut Rng) -> TaskSpec {
    let atoms = rng.between(3, 4) as u16;
    let initial: Vec<u16> = (0..atoms).filter(|_| rng.chance(30)).collect();
    let held = |atom| {
        if initial.contains(&atom) {
            yes(atom)
        } else {
            no(atom)
        }
    };
    let mut order: Vec<u16> = (0..atoms).collect();
    rng.shuffle(&mut order);
    let changed = order[1..3].iter().map(|&atom| held(atom) ^ 1);
    let mut operators: Vec<OperatorSpec> = changed
        .map(|literal| OperatorSpec::strips(&[], &[literal]))
        .collect();
    let (one, other) = (held(order[0]), held(order[1]) ^ 1);
    operators.push(in_turn(rng, usize::from(atoms), one, other));
    TaskSpec {
        atoms,
        goal: goal(rng, usize::from(atoms), &operators),
        initial,
        operators,
    }
}

/// An operator that adds and deletes one atom, or now and then one with a single
/// effect, by which the other operators meet more states.
fn any_operator(rng: &mut Rng, atoms: usize) -> OperatorSpec {
    if rng.chance(20) {
        return OperatorSpec::strips(&[], &[literal(rng, atoms)]);
    }
    if atoms > 1 && rng.chance(50) {
        let sign = *rng.pick(&[no, yes]);
        let clause = two_alike(rng, atoms, sign);
        return in_turn(rng, atoms, clause[0], clause[1]);
    }
    let all: Vec<u16> = (0..atoms as u16).collect();
    operator(rng, atoms, &all)
}

/// A task of one operator, a set of clauses and a clause to be judged.
#[derive(Debug)]
pub struct Judged {
    pub task: TaskSpec,
    pub set: Vec<Row>,
    pub clause: Row,
}

/// The clause has mostly two negative or two positive literals, of atoms that the
/// operator adds and deletes. The set now and then makes an add row contradictory.
pub fn judged(rng: &mut Rng) -> Judged {
    let atoms = rng.between(2, 4);
    let clause = match rng.below(10) {
        0..=4 => two_alike(rng, atoms, no),
        5..=6 => two_alike(rng, atoms, yes),
        _ => random_row(rng, atoms),
    };
    let list = literals(&clause);
    let operator = if rng.chance(60) && list.len() > 1 {
        in_turn(rng, atoms, list[0], list[1])
    } else {
        let favoured: Vec<u16> = list.iter().map(|word| word / 2).collect();
        operator(rng, atoms, &favoured)
    };
    let mut set = random_set(rng, atoms, 2);
    if rng.chance(40) {
        set.extend(excluding(rng, &operator));
    }
    if rng.chance(40) {
        set.push(clause);
    }
    let task = TaskSpec {
        atoms: atoms as u16,
        operators: vec![operator],
        ..TaskSpec::default()
    };
    Judged { task, set, clause }
}

/// An operator that makes one literal of a clause false and another true, and has
/// rows that do the opposite. Their conditions contradict each other, or do not. What
/// stands twice among the conditions to pick from is to be picked twice as often.
fn in_turn(rng: &mut Rng, atoms: usize, one: u16, other: u16) -> OperatorSpec {
    let precondition = if rng.chance(40) {
        vec![other]
    } else {
        literal_list(rng, atoms, 1)
    };
    let any = [literal(rng, atoms)];
    let falsifies = literal_list(rng, atoms, 1);
    let against = turned(rng, &falsifies);
    let denied = turned(rng, &precondition);
    let fulfils = rng.pick(&[&[], &falsifies[..], &any, &any]).to_vec();
    let undoes = rng
        .pick(&[&against[..], &denied, &fulfils, &fulfils])
        .to_vec();
    let restores = rng.pick(&[&[], &against[..], &undoes, &any]).to_vec();
    let mut rows = vec![
        RowSpec::new(one ^ 1, &falsifies),
        RowSpec::new(other, &fulfils),
        RowSpec::new(other ^ 1, &undoes),
    ];
    if rng.chance(40) {
        rows.push(RowSpec::new(one, &restores));
    }
    rng.shuffle(&mut rows);
    OperatorSpec { precondition, rows }
}

/// A clause of two literals of one sign, sometimes with a third; of one literal
/// where there is but one atom.
pub fn two_alike(rng: &mut Rng, atoms: usize, sign: fn(u16) -> u16) -> Row {
    let first = rng.below(atoms);
    let second = (first + rng.between(1, atoms.max(2) - 1)) % atoms;
    let mut list = vec![sign(first as u16), sign(second as u16)];
    if rng.chance(25) {
        list.push(literal(rng, atoms));
    }
    row(&list)
}

/// An operator with one or two atoms that it adds and deletes, mostly favoured ones,
/// and up to two more rows.
fn operator(rng: &mut Rng, atoms: usize, favoured: &[u16]) -> OperatorSpec {
    let precondition = literal_list(rng, atoms, 2);
    let mut rows = Vec::new();
    for _ in 0..rng.between(1, 2) {
        let atom = if rng.chance(80) {
            *rng.pick(favoured)
        } else {
            rng.below(atoms) as u16
        };
        rows.extend(add_and_delete(rng, atoms, atom, &precondition));
    }
    for _ in 0..rng.below(3) {
        let most = *rng.pick(&[0, 2]);
        rows.push(RowSpec::new(
            literal(rng, atoms),
            &literal_list(rng, atoms, most),
        ));
    }
    rng.shuffle(&mut rows);
    OperatorSpec { precondition, rows }
}

/// A row that adds the atom and one that deletes it: without conditions, with the
/// same, with conditions of one row alone, with any, with such that contradict each
/// other, and with such that contradict the precondition.
fn add_and_delete(rng: &mut Rng, atoms: usize, atom: u16, precondition: &[u16]) -> [RowSpec; 2] {
    let some = literal_list(rng, atoms, 2);
    let (add, delete) = match rng.below(7) {
        0 => (Vec::new(), Vec::new()),
        1 => (some.clone(), some),
        2 => (Vec::new(), some),
        3 => (some, Vec::new()),
        4 => (some, literal_list(rng, atoms, 2)),
        5 => (turned(rng, &some), some),
        _ => (turned(rng, precondition), some),
    };
    [
        RowSpec::new(yes(atom), &add),
        RowSpec::new(no(atom), &delete),
    ]
}

/// The list with one literal turned into its complement.
fn turned(rng: &mut Rng, list: &[u16]) -> Vec<u16> {
    let mut list = list.to_vec();
    if let Some(place) = rng.place(list.len()) {
        list[place] ^= 1;
    }
    list
}

/// A clause by which a condition of an add row is false where the precondition holds.
fn excluding(rng: &mut Rng, operator: &OperatorSpec) -> Option<Row> {
    let adds = operator.rows.iter().filter(|row| row.effect % 2 == 0);
    let conditions: Vec<u16> = adds.flat_map(|row| row.conditions.clone()).collect();
    let condition = conditions[rng.place(conditions.len())?];
    let mut list = vec![condition ^ 1];
    if let Some(place) = rng.place(operator.precondition.len()) {
        list.push(operator.precondition[place] ^ 1);
    }
    Some(row(&list))
}

/// Literals of atoms that an operator adds and deletes, and now and then of others.
fn goal(rng: &mut Rng, atoms: usize, operators: &[OperatorSpec]) -> Vec<u16> {
    let effects: Vec<u16> = operators
        .iter()
        .flat_map(|operator| operator.rows.iter().map(|row| row.effect))
        .collect();
    let mut list = literal_list(rng, atoms, 1);
    if rng.chance(80) {
        list.push(*rng.pick(&effects));
    }
    list.sort_unstable();
    list.dedup_by_key(|literal| *literal / 2);
    list
}

/// A re-encoded task whose operators set and clear one value, and set one variable
/// to two values; its goal is often about such a value.
pub fn fdr(rng: &mut Rng) -> FdrSpec {
    let mut spec = foreign(rng);
    let operators = rng.between(1, 4);
    spec.operators = (0..operators).map(|_| fdr_operator(rng, &spec)).collect();
    if let Some(row) = spec.operators[0].rows.first().filter(|_| rng.chance(60)) {
        spec.goal = vec![(row.variable, 2 * row.value + rng.below(2) as u16)];
    }
    spec
}

/// An operator with rows about one or two values.
fn fdr_operator(rng: &mut Rng, spec: &FdrSpec) -> FdrOperatorSpec {
    let mut rows = fdr_rows(rng, spec);
    if rng.chance(50) {
        rows.extend(fdr_rows(rng, spec));
    }
    rng.shuffle(&mut rows);
    FdrOperatorSpec {
        precondition: spec.literals(rng, 1),
        rows,
    }
}

/// Rows about one variable: a set and a clear of one value, two sets, two clears.
fn fdr_rows(rng: &mut Rng, spec: &FdrSpec) -> Vec<FdrRowSpec> {
    let (variable, value) = *rng.pick(&spec.atoms);
    let of_variable: Vec<_> = spec.atoms.iter().filter(|a| a.0 == variable).collect();
    let other = rng.pick(&of_variable).1;
    let conditions = spec.literals(rng, 1);
    let row = |kind, value, conditions: &[Pair]| FdrRowSpec {
        kind,
        variable,
        value,
        conditions: conditions.to_vec(),
    };
    let set = |value, conditions: &[Pair]| row(0, value, conditions);
    let clear = |value, conditions: &[Pair]| row(1, value, conditions);
    match rng.below(6) {
        0 => vec![set(value, &[]), clear(value, &[])],
        1 => vec![set(value, &conditions), clear(value, &conditions)],
        2 => vec![set(value, &conditions), clear(value, &[])],
        3 => vec![
            set(value, &[]),
            clear(value, &conditions),
            clear(other, &[]),
        ],
        4 => vec![set(value, &[]), set(other, &conditions)],
        _ => vec![clear(value, &[]), clear(other, &conditions)],
    }
}
