//! What a set says about each operator, by one call for each.

use inputs::structured::{gripper, ring};
use inputs::task::TaskSpec;
use kulabismuth::Reply;
use reference::marks::MOST_MARK_BYTES;
use reference::operator_closure::operator_closure;
use sources::Synthesized;

use crate::checker::ring_both_ways;
use crate::timing::Bench;

pub fn run(bench: &Bench) {
    one(bench, "gripper 14", &gripper(14, 2, 2), 3);
    one(bench, "ring 100", &ring(100), 3);
    one(bench, "the checker's ring", &ring_both_ways(), 2);
}

/// The closure for every operator, with the set that synthesis finds.
fn one(bench: &Bench, name: &str, task: &TaskSpec, n: usize) {
    let source = Synthesized::new(task.image(), n);
    let (image, rows) = (&source.image, source.rows.concat());
    let operators = image[1];
    let name = format!(
        "closure {name}, {} rows, {operators} operators, by kb_closure",
        source.rows.len()
    );
    bench.compare(
        &name,
        usize::from(operators),
        &vec![0; MOST_MARK_BYTES],
        |marks| {
            let closure = |operator| kulabismuth::closure(image, &rows, operator, marks);
            let replies: Vec<Reply> = (0..operators).map(closure).collect();
            (replies, marks.clone())
        },
        |marks| {
            let closure = |operator| operator_closure(image, &rows, operator, marks).into();
            let replies: Vec<Reply> = (0..operators).map(closure).collect();
            (replies, marks.clone())
        },
    );
}
