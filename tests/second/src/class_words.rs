//! What a run must have met of the words that classes brought: bits and sets against their rule, and
//! counts of limits that no number of vans makes.

use crate::gen::draft::to_bytes;
use crate::sheet::{read_values, words};
use crate::tally::Tally;

const BITS: [i64; 5] = [0, 3, 255, 256, 4_294_967_295];
const SETS: [i64; 4] = [0, 256, 257, 4_294_967_295];
const COUNTS: [i64; 8] = [0, 2, 3, 5, 24, 26, 27, 28];
const SHORT: &str = "limits: 2 for a count that no number of vans makes, and too few words behind it";
const SIX_VANS: &str = "limits: opened with count 19";

pub fn names() -> Vec<String> {
    let mut names: Vec<String> = [SHORT, SIX_VANS].map(String::from).to_vec();
    names.extend(BITS.map(|bit| alone("bit", bit)));
    names.extend(SETS.map(|set| alone("set", set)));
    names.extend(COUNTS.map(counted));
    names
}

fn alone(what: &str, value: i64) -> String {
    format!("class: 3 for {what} {value} alone")
}

fn counted(count: i64) -> String {
    format!("limits: 2 for count {count}")
}

/// Of a sheet and what opening it answers.
pub fn note_opened(tally: &mut Tally, bytes: &[u8], answer: u64) {
    let words = words(bytes);
    let Some(&count) = words.first() else { return };
    match answer {
        0 if count == 19 => tally.add(SIX_VANS),
        2 => note_count(tally, count, words.len()),
        3 => note_value(tally, &words),
        _ => {}
    }
}

fn note_count(tally: &mut Tally, count: i64, length: usize) {
    if COUNTS.contains(&count) {
        tally.add(counted(count));
    }
    if count < 25 && count % 3 != 1 && length as i64 <= count {
        tally.add(SHORT);
    }
}

/// A bit or a set that is the only word amiss: with a good one in its place all values are in order.
fn note_value(tally: &mut Tally, words: &[i64]) {
    let nodes = 1 + words[0] as usize;
    let bits = (3..nodes).step_by(3).map(|at| ("bit", at));
    let count = words.get(nodes).map_or(0, |&n| n.min(64) as usize);
    let sets = (0..count).map(|x| ("set", nodes + 1 + 4 * x + 3));
    for (what, at) in bits.chain(sets) {
        let known = if what == "bit" { BITS.as_slice() } else { &SETS };
        if words.get(at).is_some_and(|value| known.contains(value)) && mended(words, at) {
            tally.add(alone(what, words[at]));
        }
    }
}

fn mended(words: &[i64], at: usize) -> bool {
    let mut good = words.to_vec();
    good[at] = 1;
    reads(&good)
}

/// Do 1 to 3 let these words pass?
pub fn reads(words: &[i64]) -> bool {
    let words: Vec<u32> = words.iter().map(|&word| word as u32).collect();
    read_values(&to_bytes(&words)).is_ok()
}
