//! Timing both sides of a benchmark.

use std::fmt::Debug;
use std::time::{Duration, Instant};

use inputs::Rng;

/// Each side is timed so often; the shortest time counts.
const REPEATS: usize = 15;

pub struct Bench {
    wanted: Vec<String>,
}

impl Bench {
    pub fn new(wanted: Vec<String>) -> Bench {
        println!("best of {REPEATS}; buffers are copied before the clock starts");
        Bench { wanted }
    }

    /// Runs both sides alternately, each on a fresh copy of the buffers, and
    /// compares what they give. `times` is how many calls or steps one run makes.
    pub fn compare<B: Clone, R: PartialEq + Debug>(
        &self,
        name: &str,
        times: usize,
        buffers: &B,
        mut rattle: impl FnMut(&mut B) -> R,
        mut rust: impl FnMut(&mut B) -> R,
    ) {
        let is_wanted = |part: &String| name.contains(part.as_str());
        if !self.wanted.is_empty() && !self.wanted.iter().any(is_wanted) {
            return;
        }
        let mut best = [Duration::MAX; 2];
        for _ in 0..REPEATS {
            let (rattle_time, rattle_result) = timed(buffers, &mut rattle);
            let (rust_time, rust_result) = timed(buffers, &mut rust);
            assert!(rattle_result == rust_result, "{name}: results differ");
            best = [best[0].min(rattle_time), best[1].min(rust_time)];
        }
        let [rattle, rust] = best.map(|time| time.as_secs_f64());
        println!(
            "{name}: Rattle {:.2} ms, Rust {:.2} ms, ratio {:.2} ({:.0} and {:.0} ns each)",
            rattle * 1e3,
            rust * 1e3,
            rattle / rust,
            rattle * 1e9 / times as f64,
            rust * 1e9 / times as f64
        );
    }
}

fn timed<B: Clone, R>(buffers: &B, run: &mut impl FnMut(&mut B) -> R) -> (Duration, R) {
    let mut copy = buffers.clone();
    let start = Instant::now();
    let result = run(&mut copy);
    (start.elapsed(), result)
}

/// A list of operators each of which can be applied where it stands: random
/// numbers are tried in the state until so many were applied.
pub fn walk(
    rng: &mut Rng,
    operators: usize,
    length: usize,
    mut apply: impl FnMut(u16) -> bool,
) -> Vec<u16> {
    let mut list = Vec::with_capacity(length);
    while list.len() < length {
        let operator = rng.below(operators) as u16;
        if apply(operator) {
            list.push(operator);
        }
    }
    list
}
