//! A trail in its parts, one a van, and put together again.

use crate::rng::Rng;
use crate::trail::part;

pub fn cut(trail: &[u64], vans: usize) -> Vec<Vec<u64>> {
    (0..vans).map(|van| trail[part(trail.len(), vans, van)].to_vec()).collect()
}

/// Parts of `each` words, longer ones cut and shorter ones filled, and some words left over.
pub fn join(rng: &mut Rng, parts: &[Vec<u64>], each: usize) -> Vec<u64> {
    let filler = *rng.pick(&[0, 5, u64::MAX]);
    let mut trail = vec![];
    for (van, words) in parts.iter().enumerate() {
        trail.extend(&words[..each.min(words.len())]);
        trail.resize((van + 1) * each, filler);
    }
    trail.extend((0..rng.below(parts.len())).map(|i| 1_000 + i as u64));
    trail
}
