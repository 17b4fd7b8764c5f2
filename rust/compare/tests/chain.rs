//! Demand 3, executed on the library alone: from synthesis to coded states.

use inputs::{random, state, structured, Rng};
use reference::marks::mark_bytes;

/// The library's synthesized rows, accepted by its checker, and its re-encoding.
fn reencoded(image: &[u16], n: u16) -> Vec<u16> {
    let (mut rows, mut work) = (vec![1; 30_000], vec![1; 30_000]);
    let mut marks = vec![1; mark_bytes(usize::from(image[0]))];
    let found = kulabismuth::synthesize(image, n, 65535, &mut rows, &mut work, &mut marks);
    assert_eq!(found.number, 0, "{image:?}");
    let rows = &rows[..3 * found.first as usize];
    assert_eq!(
        kulabismuth::check(image, rows, &mut marks).number,
        0,
        "{image:?}"
    );
    let mut target = vec![1; 32_768];
    let written = kulabismuth::reencode(image, rows, &mut marks, &mut target);
    assert_eq!(written.number, 0, "{image:?}");
    target.truncate(written.first as usize);
    target
}

/// A task with its re-encoding, and a state in both.
struct Both<'a> {
    image: &'a [u16],
    coded: &'a [u16],
    bytes: Vec<u8>,
    values: Vec<u16>,
}

impl Both<'_> {
    fn initial<'a>(image: &'a [u16], coded: &'a [u16]) -> Both<'a> {
        let mut bytes = vec![9; usize::from(image[0])];
        let mut values = vec![9; usize::from(coded[0])];
        assert_eq!(kulabismuth::task_initial(image, &mut bytes).number, 0);
        assert_eq!(kulabismuth::fdr_initial(coded, &mut values).number, 0);
        Both {
            image,
            coded,
            bytes,
            values,
        }
    }

    /// Asserts that each state is the coded form of the other and that the goal
    /// tests answer alike.
    fn agree(&self) {
        let mut codes = vec![9; self.values.len()];
        let mut decoded = vec![9; self.bytes.len()];
        let encode = kulabismuth::encode(self.coded, &self.bytes, &mut codes);
        let decode = kulabismuth::decode(self.coded, &self.values, &mut decoded);
        assert_eq!((encode.number, decode.number), (0, 0), "{:?}", self.image);
        assert_eq!(codes, self.values, "{:?}", self.image);
        assert_eq!(decoded, self.bytes, "{:?}", self.image);
        let goal = kulabismuth::task_goal(self.image, &self.bytes);
        let coded_goal = kulabismuth::fdr_goal(self.coded, &self.values);
        assert_eq!(goal, coded_goal, "{:?}", self.image);
    }

    fn step(&mut self, operator: u16) -> bool {
        let reply = kulabismuth::task_step(self.image, &mut self.bytes, operator);
        let coded = kulabismuth::fdr_step(self.coded, &mut self.values, operator);
        assert_eq!(reply, coded, "{:?} {operator}", self.image);
        self.agree();
        reply.number == 0
    }

    fn run(&mut self, list: &[u16]) {
        let reply = kulabismuth::task_run(self.image, &mut self.bytes, list);
        let coded = kulabismuth::fdr_run(self.coded, &mut self.values, list);
        assert_eq!(reply, coded, "{:?} {list:?}", self.image);
        self.agree();
    }
}

/// A random list as steps and as a list run, and the steps that were done
/// again as a list run.
fn answer_alike(rng: &mut Rng, image: &[u16], n: u16) {
    let coded = reencoded(image, n);
    let operators = usize::from(image[1]);
    let list: Vec<u16> = (0..30).map(|_| state::operator(rng, operators)).collect();
    let mut steps = Both::initial(image, &coded);
    let mut done = list.clone();
    done.retain(|&operator| steps.step(operator));
    Both::initial(image, &coded).run(&list);
    let mut again = Both::initial(image, &coded);
    again.run(&done);
    assert_eq!(again.bytes, steps.bytes, "{image:?} {list:?}");
}

#[test]
fn both_encodings_answer_alike() {
    let rng = &mut Rng::new(601);
    for number in 0..2_000 {
        let image = random::small(rng).image();
        answer_alike(rng, &image, 1 + number % 3);
    }
    for task in [
        structured::gripper(4, 3, 2),
        structured::blocks(4),
        structured::briefcase(3, 3),
        structured::changer(3, 3),
    ] {
        answer_alike(rng, &task.image(), 3);
    }
}
