//! Coding of states from atoms and back.

use compare::{Guarded, Tally};
use inputs::state::{damaged, wrong_length};
use inputs::Rng;
use reference::coding as model;
use sources::fdr;

const LEAST: usize = 50;

/// The target's length, seldom a wrong one.
fn length(rng: &mut Rng, right: usize) -> usize {
    if rng.chance(6) {
        wrong_length(rng, right)
    } else {
        right
    }
}

#[test]
fn encode() {
    let rng = &mut Rng::new(501);
    let mut tally = Tally::new("kb_encode");
    while !tally.is_full() {
        let source = fdr(rng);
        let atoms = source.spec.atoms.len();
        let state = match rng.below(10) {
            0 => damaged(rng, atoms),
            1 => inputs::state::valid(rng, atoms),
            _ => source.spec.atom_state(rng),
        };
        let target = vec![rng.word(); length(rng, source.spec.domains.len())];
        tally.compare(
            (),
            (
                Guarded::new(&source.image),
                Guarded::new(&state),
                Guarded::new(&target),
            ),
            |(image, state, target)| {
                model::encode(image.lend(), state.lend(), target.lend_mut()).into()
            },
            |(image, state, target)| {
                kulabismuth::encode(image.lend(), state.lend(), target.lend_mut())
            },
        );
    }
    tally.finish(LEAST, &[0, 17, 18, 23]);
}

#[test]
fn decode() {
    let rng = &mut Rng::new(502);
    let mut tally = Tally::new("kb_decode");
    while !tally.is_full() {
        let source = fdr(rng);
        let state = source.state(rng);
        let target = vec![rng.word() as u8; length(rng, source.spec.atoms.len())];
        tally.compare(
            (),
            (
                Guarded::new(&source.image),
                Guarded::new(&state),
                Guarded::new(&target),
            ),
            |(image, state, target)| {
                model::decode(image.lend(), state.lend(), target.lend_mut()).into()
            },
            |(image, state, target)| {
                kulabismuth::decode(image.lend(), state.lend(), target.lend_mut())
            },
        );
    }
    tally.finish(LEAST, &[0, 17, 18]);
}
