//! Counts by name. What a run must have met is named beforehand; a name never met fails the run.

use std::collections::BTreeMap;

#[derive(Default)]
pub struct Tally {
    counts: BTreeMap<String, u64>,
}

impl Tally {
    pub fn expecting(names: impl IntoIterator<Item = String>) -> Tally {
        Tally { counts: names.into_iter().map(|name| (name, 0)).collect() }
    }

    pub fn add(&mut self, name: impl Into<String>) {
        *self.counts.entry(name.into()).or_insert(0) += 1;
    }

    /// Those of the names that hold.
    pub fn add_held<const N: usize>(&mut self, names: [(&str, bool); N]) {
        for (name, _) in names.iter().filter(|one| one.1) {
            self.add(*name);
        }
    }

    pub fn count(&self, name: &str) -> u64 {
        self.counts.get(name).copied().unwrap_or(0)
    }

    pub fn missing(&self) -> Vec<&str> {
        self.counts.iter().filter(|(_, &count)| count == 0).map(|(name, _)| name.as_str()).collect()
    }

    pub fn print(&self) {
        for (name, count) in &self.counts {
            println!("{count:>9}  {name}");
        }
    }
}
