//! Reach: counts of what an input reaches.

use std::collections::BTreeMap;

/// Counts by name; the required ones must not stay at 0.
pub struct Reach {
    pub counts: BTreeMap<String, usize>,
    pub required: Vec<String>,
}

impl Reach {
    pub fn new(required: Vec<String>) -> Reach {
        Reach {
            counts: BTreeMap::new(),
            required,
        }
    }

    pub fn count(&mut self, what: impl Into<String>) {
        *self.counts.entry(what.into()).or_insert(0) += 1;
    }

    pub fn missing(&self) -> Vec<String> {
        let reached = |what: &String| self.counts.contains_key(what);
        let required = self.required.iter();
        required.filter(|what| !reached(what)).cloned().collect()
    }

    /// Prints; true if everything required was reached.
    pub fn report(&self, out: &mut impl FnMut(&str)) -> bool {
        for (what, count) in &self.counts {
            out(&format!("reached {what} {count}"));
        }
        for what in self.missing() {
            out(&format!("never reached {what}"));
        }
        self.missing().is_empty()
    }
}

pub fn names(prefix: &str, numbers: std::ops::RangeInclusive<u8>) -> Vec<String> {
    numbers.map(|n| format!("{prefix}{n}")).collect()
}

pub fn texts(list: &[&str]) -> Vec<String> {
    list.iter().map(|text| text.to_string()).collect()
}
