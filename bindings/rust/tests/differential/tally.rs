//! Counts of what came out, so that a test that tries nothing fails.

use std::collections::BTreeMap;
use std::fmt::Debug;

use plain::Refusal;

/// How often each thing came out of one function.
pub struct Tally {
    name: &'static str,
    counts: BTreeMap<String, usize>,
}

impl Tally {
    pub fn new(name: &'static str) -> Tally {
        Tally {
            name,
            counts: BTreeMap::new(),
        }
    }

    /// Counts one more of something.
    pub fn count(&mut self, what: &str) {
        *self.counts.entry(what.to_string()).or_default() += 1;
    }

    /// Counts a result: something, or the number of the refusal.
    pub fn result<T: Debug>(&mut self, what: &str, result: &Result<T, Refusal>) {
        match result {
            Ok(_) => self.count(what),
            Err(refusal) => self.count(&label(refusal.number)),
        }
    }

    /// Fails unless something came out so often.
    pub fn at_least(&self, least: usize, what: &str) {
        let count = self.counts.get(what).copied().unwrap_or(0);
        assert!(
            count >= least,
            "{}: {what} came out {count} times, and not {least}",
            self.name
        );
    }

    /// Fails unless each of some refusals came out so often.
    pub fn refusals_at_least(&self, least: usize, numbers: &[usize]) {
        for &number in numbers {
            self.at_least(least, &label(number));
        }
    }

    /// Prints all counts.
    pub fn print(&self) {
        let counts: Vec<String> = self
            .counts
            .iter()
            .map(|(what, count)| format!("{what}: {count}"))
            .collect();
        println!("{:9} {}", self.name, counts.join(", "));
    }
}

/// The name under which a refusal is counted. Written so that the names sort by number.
fn label(number: usize) -> String {
    format!("refused {number:3}")
}
