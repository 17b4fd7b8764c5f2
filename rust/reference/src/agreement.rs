//! Demand 3 along one list: a task and its re-encoding by an accepted set,
//! compared by the calls.

use crate::answer::Answer;
use crate::checker;
use crate::clause::Clause;
use crate::{coding, fdr, reencoding, state};

/// Whether task and re-encoding agree along a list of operator numbers, for a
/// set that the checker accepts: at the start and after each step the answers
/// are the same, every clause holds, the goal tests say the same and each state
/// is the other's code; and the list runs answer the same and leave the states
/// after the steps before the first refused one.
pub fn agree(image: &[u16], clauses: &[u16], list: &[u16], marks: &mut [u8]) -> Answer<bool> {
    let (_, set) = checker::accepted(image, clauses, marks)?;
    let mut encoded = vec![0; 32_768];
    let length = reencoding::reencode(image, clauses, marks, &mut encoded)?;
    let both = Both {
        image,
        encoded: &encoded[..length],
        clauses: set,
    };
    Ok(both.steps_agree(list) && both.runs_agree(list))
}

/// A task image and its re-encoding by a set.
struct Both<'a> {
    image: &'a [u16],
    encoded: &'a [u16],
    clauses: Vec<Clause>,
}

/// A state of each.
type States = (Vec<u8>, Vec<u16>);

impl Both<'_> {
    /// The initial states.
    fn start(&self) -> Option<States> {
        let mut bytes = vec![0; usize::from(self.image[0])];
        let mut values = vec![0; usize::from(self.encoded[0])];
        state::initial(self.image, &mut bytes).ok()?;
        fdr::initial(self.encoded, &mut values).ok()?;
        Some((bytes, values))
    }

    fn same(&self, (bytes, values): &States) -> bool {
        let mut coded = vec![0; values.len()];
        let mut decoded = vec![0; bytes.len()];
        let goal = state::goal(self.image, bytes);
        self.clauses.iter().all(|clause| clause.holds(bytes))
            && goal.is_ok()
            && goal == fdr::goal(self.encoded, values)
            && coding::encode(self.encoded, bytes, &mut coded).is_ok()
            && coding::decode(self.encoded, values, &mut decoded).is_ok()
            && (&decoded, &coded) == (bytes, values)
    }

    fn steps_agree(&self, list: &[u16]) -> bool {
        let Some(mut states) = self.start() else {
            return false;
        };
        self.same(&states)
            && list.iter().all(|&operator| {
                let (bytes, values) = &mut states;
                let answer = state::step(self.image, bytes, operator);
                answer == fdr::step(self.encoded, values, operator) && self.same(&states)
            })
    }

    fn runs_agree(&self, list: &[u16]) -> bool {
        let (Some(mut states), Some(mut stepped)) = (self.start(), self.start()) else {
            return false;
        };
        let answer = state::run(self.image, &mut states.0, list);
        let fdr_answer = fdr::run(self.encoded, &mut states.1, list);
        for &operator in list {
            if state::step(self.image, &mut stepped.0, operator).is_err() {
                break;
            }
            let _ = fdr::step(self.encoded, &mut stepped.1, operator);
        }
        answer == fdr_answer && self.same(&states) && states == stepped
    }
}
