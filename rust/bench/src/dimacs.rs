//! Clauses to and from DIMACS CNF: three literals each, in row order and
//! shuffled.

use inputs::clauses::{literals, Row};
use inputs::dimacs::{distinct_rows, written, Text};
use inputs::task::TaskSpec;
use inputs::Rng;
use kulabismuth::Reply;
use reference::dimacs as model;

use crate::timing::Bench;

const ATOMS: usize = 200;
const MOST: usize = 10_000;

pub fn run(bench: &Bench) {
    let rng = &mut Rng::new(4);
    let task = TaskSpec {
        atoms: ATOMS as u16,
        ..TaskSpec::default()
    };
    let image = task.image();
    for count in [1_000, 2_000, 5_000, MOST] {
        let rows = distinct_rows(rng, ATOMS, count);
        read(bench, &image, "in order", count, &written(ATOMS, &rows));
        read(bench, &image, "shuffled", count, &shuffled(rng, &rows));
    }
    write(bench, &image, &distinct_rows(rng, ATOMS, MOST));
}

/// The text of the rows with clauses and literals in any order.
fn shuffled(rng: &mut Rng, rows: &[Row]) -> Vec<u8> {
    let mut clauses: Vec<Vec<u16>> = rows.iter().map(literals).collect();
    rng.shuffle(&mut clauses);
    for clause in &mut clauses {
        rng.shuffle(clause);
    }
    Text::new(ATOMS, &clauses).plain()
}

fn read(bench: &Bench, image: &[u16], order: &str, count: usize, text: &[u8]) {
    bench.compare(
        &format!("read {count} clauses {order}, {} bytes", text.len()),
        count,
        &vec![0; 3 * MOST],
        |rows| (kulabismuth::read_dimacs(image, text, rows), rows.clone()),
        |rows| {
            let reply: Reply = model::read(image, text, rows).into();
            (reply, rows.clone())
        },
    );
}

fn write(bench: &Bench, image: &[u16], rows: &[Row]) {
    let length = written(ATOMS, rows).len();
    let (count, rows) = (rows.len(), rows.concat());
    bench.compare(
        &format!("write {count} clauses, {length} bytes"),
        count,
        &vec![0; length],
        |text| (kulabismuth::write_dimacs(image, &rows, text), text.clone()),
        |text| {
            let reply: Reply = model::write(image, &rows, text).into();
            (reply, text.clone())
        },
    );
}
