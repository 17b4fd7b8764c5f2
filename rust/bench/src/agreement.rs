//! Task and re-encoding compared along a list.

use inputs::{structured, Rng};
use reference::agreement;
use reference::marks::MOST_MARK_BYTES;
use sources::Synthesized;

use crate::fdr::random_list;
use crate::timing::Bench;

const STEPS: usize = 1_000;

pub fn run(bench: &Bench) {
    let rng = &mut Rng::new(3);
    let source = Synthesized::new(structured::gripper(14, 2, 2).image(), 2);
    let rows = source.rows.concat();
    let list = random_list(rng, &source.reencoded(), STEPS);
    bench.compare(
        "1000 steps, gripper 14, by one kb_agree",
        list.len(),
        &vec![0; MOST_MARK_BYTES],
        |marks| kulabismuth::agree(&source.image, &rows, &list, marks),
        |marks| agreement::agree(&source.image, &rows, &list, marks).into(),
    );
}
