//! Re-encoded images that no re-encoding has written, and damage to such
//! images.

use crate::damage::{parts, Damage, COMMON};
use crate::state::wrong_length;
use crate::task::lay_out;
use crate::Rng;

/// A variable and a value, or a variable and a literal's second word.
pub type Pair = (u16, u16);

/// A finite-domain task before it is laid out; nothing here is checked.
#[derive(Clone, PartialEq, Eq, Debug, Default)]
pub struct FdrSpec {
    /// For each variable its number of values and its none flag.
    pub domains: Vec<Pair>,
    /// For each atom its variable and value.
    pub atoms: Vec<Pair>,
    pub initial: Vec<u16>,
    pub goal: Vec<Pair>,
    pub operators: Vec<FdrOperatorSpec>,
}

#[derive(Clone, PartialEq, Eq, Debug, Default)]
pub struct FdrOperatorSpec {
    pub precondition: Vec<Pair>,
    pub rows: Vec<FdrRowSpec>,
}

#[derive(Clone, PartialEq, Eq, Debug)]
pub struct FdrRowSpec {
    pub kind: u16,
    pub variable: u16,
    pub value: u16,
    pub conditions: Vec<Pair>,
}

fn flat(pairs: &[Pair]) -> Vec<u16> {
    pairs.iter().flat_map(|&(a, b)| [a, b]).collect()
}

fn pairs(words: &[u16]) -> Vec<Pair> {
    words
        .chunks_exact(2)
        .map(|pair| (pair[0], pair[1]))
        .collect()
}

impl FdrOperatorSpec {
    fn block(&self) -> Vec<u16> {
        let mut words = vec![self.precondition.len() as u16];
        words.extend(flat(&self.precondition));
        words.push(self.rows.len() as u16);
        for row in &self.rows {
            words.extend([row.kind, row.variable, row.value]);
            words.push(row.conditions.len() as u16);
            words.extend(flat(&row.conditions));
        }
        words
    }

    /// Takes a right block apart.
    fn read(block: &[u16]) -> Option<FdrOperatorSpec> {
        let mut words = block;
        let precondition = take_pairs(&mut words)?;
        let (&count, rest) = words.split_first()?;
        words = rest;
        let mut rows = Vec::new();
        for _ in 0..count {
            let (&[kind, variable, value], rest) = words.split_first_chunk()?;
            words = rest;
            rows.push(FdrRowSpec {
                kind,
                variable,
                value,
                conditions: take_pairs(&mut words)?,
            });
        }
        Some(FdrOperatorSpec { precondition, rows })
    }
}

/// Takes a counted list of pairs from the front.
fn take_pairs(words: &mut &[u16]) -> Option<Vec<Pair>> {
    let (&count, rest) = words.split_first()?;
    let (list, rest) = rest.split_at_checked(2 * usize::from(count))?;
    *words = rest;
    Some(pairs(list))
}

impl FdrSpec {
    pub fn image(&self) -> Vec<u16> {
        let mut parts = vec![
            flat(&self.domains),
            flat(&self.atoms),
            self.initial.clone(),
            flat(&self.goal),
        ];
        parts.extend(self.operators.iter().map(FdrOperatorSpec::block));
        let (variables, operators) = (self.domains.len(), self.operators.len());
        lay_out(variables as u16, operators as u16, &parts)
    }

    /// Takes a right image apart.
    pub fn read(image: &[u16]) -> Option<FdrSpec> {
        let parts = parts(image)?;
        let [domains, atoms, initial, goal, blocks @ ..] = &parts[..] else {
            return None;
        };
        let operators = blocks.iter().map(|block| FdrOperatorSpec::read(block));
        Some(FdrSpec {
            domains: pairs(domains),
            atoms: pairs(atoms),
            initial: initial.clone(),
            goal: pairs(goal),
            operators: operators.collect::<Option<_>>()?,
        })
    }

    /// The number of values of the variable that stand for an atom.
    fn atom_values(&self, variable: usize) -> u16 {
        let (values, none) = self.domains[variable];
        values.saturating_sub(none)
    }

    /// A random state with values in range.
    pub fn state(&self, rng: &mut Rng) -> Vec<u16> {
        let values = self
            .domains
            .iter()
            .map(|domain| usize::from(domain.0.max(1)));
        values.map(|values| rng.below(values) as u16).collect()
    }

    /// A state of a wrong length or with a value out of range.
    pub fn damaged_state(&self, rng: &mut Rng) -> Vec<u16> {
        let mut state = self.state(rng);
        if rng.chance(50) {
            let length = wrong_length(rng, state.len());
            state.resize(length, 0);
        } else {
            let variable = rng.below(state.len());
            let values = self.domains[variable].0;
            state[variable] = *rng.pick(&[values, values.saturating_add(1), 65535]);
        }
        state
    }

    /// For each variable the value of a true atom; often no group has two.
    pub fn atom_state(&self, rng: &mut Rng) -> Vec<u8> {
        let values = self.state(rng);
        let holds =
            |&(variable, value): &Pair| u8::from(values.get(usize::from(variable)) == Some(&value));
        let mut state: Vec<u8> = self.atoms.iter().map(holds).collect();
        if rng.chance(30) && !state.is_empty() {
            let atom = rng.below(state.len());
            state[atom] ^= 1;
        }
        state
    }

    /// A literal naming an atom value.
    fn literal(&self, rng: &mut Rng) -> Pair {
        let (variable, value) = *rng.pick(&self.atoms);
        (variable, 2 * value + rng.below(2) as u16)
    }

    pub(crate) fn literals(&self, rng: &mut Rng, most: usize) -> Vec<Pair> {
        let length = rng.between(0, most);
        (0..length).map(|_| self.literal(rng)).collect()
    }
}

/// A random right image with few variables; order and repetition are free,
/// a variable may have none alone, atoms stand in any order.
pub fn foreign(rng: &mut Rng) -> FdrSpec {
    let mut spec = FdrSpec::default();
    for _ in 0..rng.between(1, 4) {
        let none = rng.below(2) as u16;
        let atoms = rng.between(1 - usize::from(none), 4) as u16;
        spec.domains.push((atoms + none, none));
    }
    if (0..spec.domains.len()).all(|variable| spec.atom_values(variable) == 0) {
        spec.domains.push((1, 0));
    }
    for variable in 0..spec.domains.len() {
        let values = 0..spec.atom_values(variable);
        spec.atoms
            .extend(values.map(|value| (variable as u16, value)));
    }
    if rng.chance(50) {
        rng.shuffle(&mut spec.atoms);
    }
    spec.initial = spec.state(rng);
    spec.goal = spec.literals(rng, 3);
    for _ in 0..rng.between(0, 6) {
        let operator = foreign_operator(rng, &spec);
        spec.operators.push(operator);
    }
    spec
}

fn foreign_operator(rng: &mut Rng, spec: &FdrSpec) -> FdrOperatorSpec {
    let rows = rng.between(0, 4);
    let row = |rng: &mut Rng| {
        let (variable, value) = *rng.pick(&spec.atoms);
        let most = *rng.pick(&[0, 2]);
        FdrRowSpec {
            kind: rng.below(2) as u16,
            variable,
            value,
            conditions: spec.literals(rng, most),
        }
    };
    FdrOperatorSpec {
        precondition: spec.literals(rng, 2),
        rows: (0..rows).map(|_| row(rng)).collect(),
    }
}

/// Changes a right image so that it stays right but is no re-encoding's:
/// atoms in another order, lists turned round or with a literal repeated, a
/// variable with none alone.
pub fn estrange(rng: &mut Rng, spec: &mut FdrSpec) {
    match rng.below(4) {
        0 => rng.shuffle(&mut spec.atoms),
        1 => {
            spec.domains.push((1, 1));
            spec.initial.push(0);
        }
        2 => spec.goal.extend_from_within(..),
        _ => {
            for operator in &mut spec.operators {
                operator.precondition.reverse();
                operator.precondition.extend_from_within(..);
                for row in &mut operator.rows {
                    row.conditions.extend_from_within(..);
                    row.conditions.reverse();
                }
            }
        }
    }
}

type SpecDamage = fn(&mut Rng, &mut FdrSpec);

/// Damage to a task whose directory stays right.
pub const SPEC: &[SpecDamage] = &[
    kind_out_of_range,
    value_twice,
    value_missing,
    atom_is_none,
    none_flag,
    initial_out_of_range,
    literal_is_none,
    row_is_none,
    variable_out_of_range,
    wrapping_domains,
    no_values,
    no_atoms,
    too_many,
];

/// Damages a re-encoded image, in its words or in its parts.
pub fn damage(rng: &mut Rng, image: &mut Vec<u16>) {
    let spec = FdrSpec::read(image).filter(|_| rng.chance(60));
    if let Some(mut spec) = spec {
        rng.pick(SPEC)(rng, &mut spec);
        *image = spec.image();
    } else {
        let damage: &Damage = rng.pick(COMMON);
        damage(rng, image);
    }
}

/// A random row of the task.
fn random_row<'a>(rng: &mut Rng, spec: &'a mut FdrSpec) -> Option<&'a mut FdrRowSpec> {
    let rows = spec.operators.iter_mut().flat_map(|o| &mut o.rows);
    let mut rows: Vec<&mut FdrRowSpec> = rows.collect();
    let place = rng.place(rows.len())?;
    Some(rows.swap_remove(place))
}

/// A random literal list of the task.
fn random_list<'a>(rng: &mut Rng, spec: &'a mut FdrSpec) -> &'a mut Vec<Pair> {
    let mut lists = vec![&mut spec.goal];
    for operator in &mut spec.operators {
        lists.push(&mut operator.precondition);
        lists.extend(operator.rows.iter_mut().map(|row| &mut row.conditions));
    }
    let place = rng.below(lists.len());
    lists.swap_remove(place)
}

fn kind_out_of_range(rng: &mut Rng, spec: &mut FdrSpec) {
    if let Some(row) = random_row(rng, spec) {
        row.kind = *rng.pick(&[2, 3, 256, 65535]);
    }
}

fn value_twice(rng: &mut Rng, spec: &mut FdrSpec) {
    let (from, to) = (rng.below(spec.atoms.len()), rng.below(spec.atoms.len()));
    spec.atoms[to] = spec.atoms[from];
}

fn value_missing(rng: &mut Rng, spec: &mut FdrSpec) {
    spec.atoms.remove(rng.below(spec.atoms.len()));
}

fn atom_is_none(rng: &mut Rng, spec: &mut FdrSpec) {
    let variable = rng.below(spec.domains.len());
    let place = rng.below(spec.atoms.len());
    spec.atoms[place] = (variable as u16, spec.atom_values(variable));
}

fn none_flag(rng: &mut Rng, spec: &mut FdrSpec) {
    let variable = rng.below(spec.domains.len());
    spec.domains[variable].1 = *rng.pick(&[2, 3, 65535]);
}

fn initial_out_of_range(rng: &mut Rng, spec: &mut FdrSpec) {
    spec.initial = spec.damaged_state(rng);
}

fn literal_is_none(rng: &mut Rng, spec: &mut FdrSpec) {
    let variable = rng.below(spec.domains.len());
    let none = 2 * spec.atom_values(variable) + rng.below(2) as u16;
    random_list(rng, spec).push((variable as u16, none));
}

fn row_is_none(rng: &mut Rng, spec: &mut FdrSpec) {
    let variable = rng.below(spec.domains.len());
    let none = spec.atom_values(variable);
    if let Some(row) = random_row(rng, spec) {
        (row.variable, row.value) = (variable as u16, none);
    }
}

fn variable_out_of_range(rng: &mut Rng, spec: &mut FdrSpec) {
    let variable = *rng.pick(&[spec.domains.len() as u16, 1024, 65535]);
    match rng.below(3) {
        0 => random_list(rng, spec).push((variable, 0)),
        1 => {
            let place = rng.below(spec.atoms.len());
            spec.atoms[place].0 = variable;
        }
        _ => {
            if let Some(row) = random_row(rng, spec) {
                row.variable = variable;
            }
        }
    }
}

/// Two domains so large that their sum, kept in 16 bits, stays the same.
fn wrapping_domains(rng: &mut Rng, spec: &mut FdrSpec) {
    if spec.domains.len() == 1 {
        spec.domains.push((1, 1));
        spec.initial.push(0);
    }
    if let [first, second, ..] = &mut spec.domains[..] {
        let more = rng.between(1, 65000) as u16;
        first.0 = first.0.wrapping_add(more);
        second.0 = second.0.wrapping_sub(more);
    }
}

fn no_values(rng: &mut Rng, spec: &mut FdrSpec) {
    spec.domains.push((0, rng.below(2) as u16));
    spec.initial.push(0);
}

fn no_atoms(rng: &mut Rng, spec: &mut FdrSpec) {
    if rng.chance(50) {
        spec.atoms.clear();
    } else {
        *spec = FdrSpec {
            domains: vec![(1, 1)],
            initial: vec![0],
            ..FdrSpec::default()
        };
    }
}

/// A number at or just above its bound: variables, operators, words.
fn too_many(rng: &mut Rng, spec: &mut FdrSpec) {
    let bound = 1024 + rng.below(2);
    match rng.below(4) {
        0 => {
            spec.domains.resize(bound, (1, 1));
            spec.initial.resize(bound, 0);
        }
        1 => spec.operators.resize(bound, FdrOperatorSpec::default()),
        2 => {
            let more = bound - spec.atoms.len();
            let variable = spec.domains.len() as u16;
            spec.domains.push((more as u16, 0));
            spec.initial.push(0);
            spec.atoms
                .extend((0..more as u16).map(|value| (variable, value)));
        }
        _ => {
            let literal = spec.literal(rng);
            spec.goal.clear();
            let rest = 32_768 - spec.image().len();
            spec.goal.resize(rest / 2 + rng.below(2), literal);
        }
    }
}
