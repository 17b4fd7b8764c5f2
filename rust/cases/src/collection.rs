//! The cases of one program, kept within what the program reads.

use crate::case::Case;
use std::collections::{BTreeMap, BTreeSet};
use std::{fs, path::Path};

/// Bytes of an input at the most, one less than a program reads. It takes what fills
/// its buffer of 65,536 for the whole input and does not see whether more would follow;
/// with a byte left free it has read to the end.
const MOST_BYTES: usize = 65535;
/// Words of a random case at the most.
const MOST_WORDS: usize = 160;
/// Random cases tried in each round.
const TRIED: usize = 20_000;
/// The rounds of random cases: how many of one call may have a finding, and how many
/// one number of a refusal. The first round finds every number before all is full.
const ROUNDS: [(usize, usize); 2] = [(8, 2), (32, 7)];

#[derive(Default)]
pub struct Collection {
    input: Vec<u8>,
    output: String,
    cases: usize,
    /// The calls with the numbers that they returned.
    seen: BTreeSet<(u16, u32)>,
    /// How many random cases there are for a call and a returned number.
    random: BTreeMap<(u16, u32), usize>,
}

impl Collection {
    /// Adds a case; there must be room for it.
    pub fn add(&mut self, case: &Case) {
        assert!(case.fits(), "a list of the case is too long");
        let (number, line) = case.line();
        self.input
            .extend(case.words().into_iter().flat_map(u16::to_le_bytes));
        assert!(self.input.len() <= MOST_BYTES, "too many cases");
        self.output += &line;
        self.cases += 1;
        self.seen.insert((case.call, number));
    }

    /// Adds random cases in rounds.
    pub fn add_random(&mut self, mut case: impl FnMut() -> Case) {
        for most in ROUNDS {
            for _ in 0..TRIED {
                self.add_if_new(&case(), most);
            }
        }
    }

    /// Adds a random case, unless it is long or there are many like it.
    fn add_if_new(&mut self, case: &Case, (findings, refusals): (usize, usize)) {
        if !case.fits() || case.words().len() > MOST_WORDS {
            return;
        }
        let (number, _) = case.line();
        let most = if number == 0 { findings } else { refusals };
        let alike = self.random.entry((case.call, number)).or_default();
        if *alike < most && self.input.len() + 2 * MOST_WORDS <= MOST_BYTES {
            *alike += 1;
            self.add(case);
        }
    }

    /// Asserts that the call has been answered with each of the numbers, and
    /// with no other.
    pub fn assert_numbers(&self, call: u16, numbers: &[u32]) {
        let of_call = self.seen.iter().filter(|key| key.0 == call);
        let seen: Vec<u32> = of_call.map(|key| key.1).collect();
        assert_eq!(seen, numbers, "numbers returned by call {call}");
    }

    /// Writes the files; the folder of a new program is made.
    pub fn write(&self, folder: &Path) {
        fs::create_dir_all(folder).expect("the folder is there");
        fs::write(folder.join("stdin"), &self.input).expect("stdin is written");
        fs::write(folder.join("stdout"), &self.output).expect("stdout is written");
    }

    pub fn summary(&self) -> String {
        format!("{} cases, {} bytes", self.cases, self.input.len())
    }
}
