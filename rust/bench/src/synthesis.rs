//! Synthesis of structured tasks with n = 3.

use inputs::structured;
use inputs::task::TaskSpec;
use kulabismuth::Reply;
use reference::marks::MOST_MARK_BYTES;
use reference::synthesis::{synthesize, MOST_ROWS};
use sources::Synthesized;

use crate::timing::Bench;

/// The clause buffer, the work buffer and the marks.
type Lent = (Vec<u16>, Vec<u16>, Vec<u8>);

pub fn run(bench: &Bench) {
    one(bench, "gripper 14", &structured::gripper(14, 2, 2));
    one(bench, "blocks 7", &structured::blocks(7));
    one(bench, "ring 100", &structured::ring(100));
    one(bench, "briefcase 10 4", &structured::briefcase(10, 4));
    one(bench, "transport 3 8 5", &structured::transport(3, 8, 5));
    one(bench, "changer 6 8", &structured::changer(6, 8));
    for places in [25, 50, 71, 100, 141] {
        one(
            bench,
            &format!("growth ring {places}"),
            &structured::ring(places),
        );
    }
}

fn one(bench: &Bench, name: &str, task: &TaskSpec) {
    let image = task.image();
    let found = Synthesized::new(image.clone(), 3).rows.len();
    let lent: Lent = (
        vec![0; 3 * MOST_ROWS],
        vec![0; 3 * MOST_ROWS],
        vec![0; MOST_MARK_BYTES],
    );
    bench.compare(
        &format!("synthesis {name} n=3, {found} rows found"),
        1,
        &lent,
        |(rows, work, marks)| {
            let reply = kulabismuth::synthesize(&image, 3, 65535, rows, work, marks);
            (reply, rows.clone())
        },
        |(rows, work, marks)| {
            let reply: Reply = synthesize(&image, 3, 65535, rows, work, marks).into();
            (reply, rows.clone())
        },
    );
}
