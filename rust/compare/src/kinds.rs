//! Counting the kinds of inputs on which a call was compared.

use std::collections::BTreeMap;

/// How often each kind of input of a call occurred.
pub struct Kinds {
    call: &'static str,
    counts: BTreeMap<String, usize>,
}

impl Kinds {
    pub fn new(call: &'static str) -> Kinds {
        Kinds {
            call,
            counts: BTreeMap::new(),
        }
    }

    pub fn see(&mut self, kind: impl Into<String>) {
        *self.counts.entry(kind.into()).or_default() += 1;
    }

    pub fn see_if(&mut self, yes: bool, kind: &str) {
        if yes {
            self.see(kind);
        }
    }

    /// Prints the counts and asserts that these kinds, and no others, occurred, each at
    /// least so many times.
    pub fn finish(self, least: usize, mut expected: Vec<String>) {
        let (call, counts) = (self.call, &self.counts);
        println!("{call}: {counts:?}");
        expected.sort();
        let seen: Vec<String> = counts.keys().cloned().collect();
        assert_eq!(seen, expected, "{call}: the kinds that occurred");
        let rare = counts.iter().find(|&(_, &count)| count < least);
        assert_eq!(rare, None, "{call}: a kind occurred too rarely");
    }
}
