//! Inputs that need the reference to be made: synthesized and re-encoded ones,
//! and sets that fail at several places. Rules near those of document 02 §3.

mod failing;
pub mod nearby;

pub use failing::Failing;

use inputs::fdr::{self, FdrSpec};
use inputs::{clauses, random, state, Rng};
use reference::clause::Clause;
use reference::marks::mark_bytes;
use reference::{reencoding, synthesis, task};

/// A valid task image and clause rows that synthesis finds for it.
pub struct Synthesized {
    pub image: Vec<u16>,
    pub rows: Vec<clauses::Row>,
}

impl Synthesized {
    pub fn new(image: Vec<u16>, n: usize) -> Synthesized {
        let task = task::read(&image).expect("a right image");
        let found = synthesis::run(&task, n, 65535, synthesis::MOST_ROWS);
        let rows = found.map_or(Vec::new(), |found| found.clauses);
        let rows = rows.iter().map(Clause::words).collect();
        Synthesized { image, rows }
    }

    /// A small task and a random n, now and then a larger task.
    pub fn random(rng: &mut Rng) -> Synthesized {
        match rng.below(1000) {
            0 => Synthesized::new(random::edge(rng).image(), 1),
            1 => Synthesized::new(random::task(rng, &random::LARGE).image(), 1),
            2..=6 => Synthesized::new(random::task(rng, &random::MEDIUM).image(), 2),
            _ => {
                let image = random::small(rng).image();
                Synthesized::new(image, *rng.pick(&[1, 2, 2, 3, 3]))
            }
        }
    }

    pub fn atoms(&self) -> usize {
        usize::from(self.image[0])
    }

    /// The initial state of the task.
    pub fn initial(&self) -> Vec<u8> {
        let task = task::read(&self.image).expect("a right image");
        task.initial_state()
    }

    /// Clause words to hand to the checker: the set found, such a set changed
    /// a little, another set that is true initially, any set, damaged words.
    pub fn clause_words(&self, rng: &mut Rng) -> Vec<u16> {
        let mut rows = self.rows.clone();
        match rng.below(20) {
            0..=3 => {}
            4..=11 => {
                for _ in 0..rng.between(1, 3) {
                    clauses::mutate(rng, self.atoms(), &mut rows);
                }
            }
            12..=15 => rows = clauses::true_set(rng, &self.initial(), 5),
            16 => rows = clauses::random_set(rng, self.atoms(), 5),
            _ => {
                let mut words = clauses::words(&rows);
                clauses::damage(rng, self.atoms(), &mut words);
                return words;
            }
        }
        clauses::words(&rows)
    }

    /// The re-encoded image.
    pub fn reencoded(&self) -> Vec<u16> {
        let words = clauses::words(&self.rows);
        let mut target = vec![0; 32_768];
        let mut marks = vec![0; mark_bytes(self.atoms())];
        let length = reencoding::reencode(&self.image, &words, &mut marks, &mut target);
        target.truncate(length.expect("a synthesized set is accepted"));
        target
    }
}

/// A mark buffer's length: mostly enough, sometimes a byte short.
pub fn marks_length(rng: &mut Rng, atoms: usize) -> usize {
    let needed = mark_bytes(atoms);
    match rng.below(20) {
        0 => needed - 1,
        1 => rng.below(needed),
        2..=5 => needed + rng.between(1, 9),
        _ => needed,
    }
}

/// A target's length, given the length needed: often exact, or one too short.
pub fn target_length(rng: &mut Rng, needed: usize) -> usize {
    match rng.below(8) {
        0 => needed.saturating_sub(1),
        1 => rng.below(needed + 1),
        2..=4 => needed,
        _ => needed + rng.between(1, 20),
    }
}

/// A finite-domain image with its parts as they were before any damage.
pub struct Fdr {
    pub spec: FdrSpec,
    pub image: Vec<u16>,
}

/// A re-encoded image, one changed but right, a foreign one, or a damaged one.
pub fn fdr(rng: &mut Rng) -> Fdr {
    let mut spec = if rng.chance(50) {
        fdr::foreign(rng)
    } else {
        let image = Synthesized::random(rng).reencoded();
        FdrSpec::read(&image).expect("a right image")
    };
    if rng.chance(30) {
        fdr::estrange(rng, &mut spec);
    }
    let mut image = spec.image();
    if rng.chance(25) {
        fdr::damage(rng, &mut image);
        // A right image may come out of it; then its own parts count.
        if reference::fdr::read(&image).is_ok() {
            spec = FdrSpec::read(&image).expect("a right image");
        }
    }
    Fdr { spec, image }
}

impl Fdr {
    /// A right image.
    pub fn of(image: &[u16]) -> Fdr {
        let spec = FdrSpec::read(image).expect("a right image");
        let image = image.to_vec();
        Fdr { spec, image }
    }

    /// A state: the initial one, a random one or a damaged one.
    pub fn state(&self, rng: &mut Rng) -> Vec<u16> {
        match rng.below(10) {
            0 => self.spec.damaged_state(rng),
            1..=5 => self.spec.state(rng),
            _ => self.spec.initial.clone(),
        }
    }

    /// An operator that can be applied, if one is soon found, else any number.
    pub fn operator(&self, rng: &mut Rng, state: &[u16]) -> u16 {
        let operators = self.spec.operators.len();
        let mut operator = state::operator(rng, operators);
        for _ in 0..rng.below(3) {
            let step = reference::fdr::step(&self.image, &mut state.to_vec(), operator);
            if step.is_ok() {
                break;
            }
            operator = state::operator(rng, operators);
        }
        operator
    }
}
