//! What the readings share: steps run one after another.

use second::face::open;
use second::step::{step, Outcome};

/// From the fresh fleet of a sheet, over a trail of so many words.
pub fn run_on(bytes: &[u8], trail: usize, steps: &[[u64; 3]]) -> Outcome {
    let mut out = Outcome { answer: 0, rounds: 0, fleet: open(bytes).1, trail: vec![0; trail] };
    for &words in steps {
        out = step(bytes, &out.fleet, &out.trail, words);
    }
    out
}
