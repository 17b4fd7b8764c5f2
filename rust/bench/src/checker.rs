//! The checker on a set of about 5,000 rows and 200 operators.

use inputs::structured::ring;
use inputs::task::{no, yes, OperatorSpec, TaskSpec};
use reference::checker;
use reference::marks::MOST_MARK_BYTES;
use sources::Synthesized;

use crate::timing::Bench;

/// A ring of 100 places with steps in both directions: 4,950 mutexes.
pub fn ring_both_ways() -> TaskSpec {
    let mut task = ring(100);
    for place in 0..task.atoms {
        let before = (place + task.atoms - 1) % task.atoms;
        let back = OperatorSpec::strips(&[yes(place)], &[no(place), yes(before)]);
        task.operators.push(back);
    }
    task
}

pub fn run(bench: &Bench) {
    let task = ring_both_ways();
    let source = Synthesized::new(task.image(), 2);
    let rows = source.rows.concat();
    let size = format!(
        "{} rows, {} operators",
        source.rows.len(),
        task.operators.len()
    );
    bench.compare(
        &format!("checker {size}"),
        1,
        &vec![0; MOST_MARK_BYTES],
        |marks| kulabismuth::check(&source.image, &rows, marks),
        |marks| checker::check(&source.image, &rows, marks).into(),
    );
}
