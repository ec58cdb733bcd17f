//! A sheet in the making: its entries, before they are written as words.

use crate::sheet::{read, Sheet};

#[derive(Clone)]
pub struct Draft {
    /// Capacity, metre limit and class of each van.
    pub limits: Vec<[u32; 3]>,
    /// 1 for the profile of clean before soiled, else 0.
    pub profile: u32,
    pub nodes: Vec<[u32; 4]>,
    pub jobs: Vec<[u32; 4]>,
    pub seconds: Vec<u32>,
    pub metres: Vec<u32>,
    pub steps: Vec<[u32; 3]>,
    /// Counts that are written instead of the true ones, section and value.
    pub false_counts: Vec<(usize, u32)>,
}

impl Draft {
    pub fn n(&self) -> usize {
        self.nodes.len()
    }

    pub fn v(&self) -> usize {
        self.limits.len()
    }

    /// Count and words of each; the limits' count is of words.
    pub fn sections(&self) -> Vec<(usize, Vec<u32>)> {
        vec![
            (3 * self.limits.len() + 1, [self.limits.concat(), vec![self.profile]].concat()),
            (self.nodes.len(), self.nodes.concat()),
            (self.jobs.len(), self.jobs.concat()),
            (self.seconds.len(), self.seconds.clone()),
            (self.metres.len(), self.metres.clone()),
            (self.steps.len(), self.steps.concat()),
        ]
    }

    pub fn words(&self) -> Vec<u32> {
        let mut out = vec![];
        for (i, (count, entries)) in self.sections().into_iter().enumerate() {
            let told = self.false_counts.iter().find(|f| f.0 == i).map_or(count as u32, |f| f.1);
            out.push(told);
            out.extend(entries);
        }
        out
    }

    pub fn bytes(&self) -> Vec<u8> {
        to_bytes(&self.words())
    }

    /// Only of drafts that keep 1 to 4, 6 and 7.
    pub fn sheet(&self) -> Sheet {
        read(&self.bytes()).unwrap_or_else(|no| panic!("a draft made whole is refused by {no}"))
    }
}

pub fn to_bytes(words: &[u32]) -> Vec<u8> {
    words.iter().flat_map(|w| w.to_le_bytes()).collect()
}
