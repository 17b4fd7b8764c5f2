//! Counting answers and comparing them.

use std::collections::BTreeMap;
use std::fmt::Debug;

use kulabismuth::Reply;

/// The number of inputs each call is compared on, at least.
pub const INPUTS: usize = 20_000;

/// How often a call gave which answer; a finding counts as number 0.
pub struct Tally {
    call: &'static str,
    counts: BTreeMap<u32, usize>,
}

impl Tally {
    pub fn new(call: &'static str) -> Tally {
        Tally {
            call,
            counts: BTreeMap::new(),
        }
    }

    /// Calls both sides with the same buffers, of which each gets a copy, and
    /// asserts that they answer alike and leave the buffers alike. On a
    /// difference the whole input is printed; `numbers` are its other parts.
    /// Gives back the answer and the buffers as they are then.
    pub fn compare<B: Clone + PartialEq + Debug>(
        &mut self,
        numbers: impl Debug,
        buffers: B,
        reference: impl FnOnce(&mut B) -> Reply,
        library: impl FnOnce(&mut B) -> Reply,
    ) -> (Reply, B) {
        let (mut expected, mut given) = (buffers.clone(), buffers.clone());
        let expected = (reference(&mut expected), expected);
        let given = (library(&mut given), given);
        assert!(
            expected == given,
            "{} differs\nbuffers: {buffers:?}\nnumbers: {numbers:?}\n\
             reference: {expected:?}\nlibrary: {given:?}",
            self.call
        );
        *self.counts.entry(given.0.number).or_default() += 1;
        given
    }

    pub fn total(&self) -> usize {
        self.counts.values().sum()
    }

    pub fn is_full(&self) -> bool {
        self.total() >= INPUTS
    }

    /// Prints the counts and asserts that the listed numbers, and no others,
    /// occurred, each at least so many times.
    pub fn finish(self, least: usize, numbers: &[u32]) {
        self.finish_after(INPUTS, least, numbers);
    }

    /// The same for a call that is compared on another number of inputs.
    pub fn finish_after(self, inputs: usize, least: usize, numbers: &[u32]) {
        let (call, counts) = (self.call, &self.counts);
        println!("{call}: {} inputs, by number {counts:?}", self.total());
        assert!(self.total() >= inputs, "{call}: too few inputs");
        let seen: Vec<u32> = counts.keys().copied().collect();
        assert_eq!(seen, numbers, "{call}: the numbers that occurred");
        let rare = counts.iter().find(|&(_, &count)| count < least);
        assert_eq!(rare, None, "{call}: a number occurred too rarely");
    }
}
