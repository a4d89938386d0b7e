//! How often what was tried.

use std::collections::BTreeMap;
use std::fmt::Write;

#[derive(Default, Clone)]
pub struct Counts(pub BTreeMap<String, u64>);

impl Counts {
    pub fn add(&mut self, what: &str, n: u64) {
        match self.0.get_mut(what) {
            Some(count) => *count += n,
            None => {
                self.0.insert(what.to_string(), n);
            }
        }
    }

    /// Counts each that is so.
    pub fn add_each(&mut self, cases: &[(&str, bool)]) {
        for (what, is) in cases {
            if *is {
                self.add(what, 1);
            }
        }
    }

    pub fn of(&self, what: &str) -> u64 {
        self.0.get(what).copied().unwrap_or(0)
    }

    /// A line for each: the count, a space, and what was counted.
    pub fn text(&self) -> String {
        self.0.iter().fold(String::new(), |mut text, (what, n)| {
            writeln!(text, "{n} {what}").unwrap();
            text
        })
    }

    pub fn read(&mut self, text: &str) {
        for line in text.lines() {
            let (n, what) = line.split_once(' ').expect("a count and what was counted");
            self.add(what, n.parse().expect("a count"));
        }
    }
}
