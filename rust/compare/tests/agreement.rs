//! Demand 3 along a list: whether task and re-encoding agree.

use compare::calls::{self, Triple};
use compare::{Guarded, Tally};
use inputs::{damage, state, Rng};
use sources::{marks_length, Synthesized};

const LEAST: usize = 50;

/// A damaged image now and then, a set of any kind, a list of numbers.
fn lent(rng: &mut Rng, source: &Synthesized) -> Triple {
    let mut image = source.image.clone();
    if rng.chance(12) {
        damage::task_image(rng, &mut image);
    }
    let operators = usize::from(source.image[1]);
    let length = rng.below(25);
    let list: Vec<u16> = (0..length)
        .map(|_| state::operator(rng, operators))
        .collect();
    let marks = vec![rng.word() as u8; marks_length(rng, source.atoms())];
    (
        Guarded::new(&image),
        Guarded::new(&source.clause_words(rng)),
        Guarded::new(&list),
        Guarded::new(&marks),
    )
}

/// Every finding says that all is alike.
#[test]
fn agree() {
    let rng = &mut Rng::new(701);
    let mut tally = Tally::new("kb_agree");
    while !tally.is_full() {
        let source = Synthesized::random(rng);
        for _ in 0..5 {
            let lent = lent(rng, &source);
            let reply = calls::agree(&mut tally, lent);
            assert!(reply.number > 0 || reply.first == 1, "{reply:?}");
        }
    }
    tally.finish(LEAST, &[0, 1, 2, 3, 4, 5, 6, 7, 8, 9, 10, 11, 13]);
}
