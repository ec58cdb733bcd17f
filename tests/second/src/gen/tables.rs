//! Tables of seconds and metres that keep the triangle.

use crate::rng::Rng;

/// Streets in a grid: the distance of two corners, the same both ways.
pub fn grid(rng: &mut Rng, n: usize, size: i64) -> Vec<i64> {
    let corners: Vec<(i64, i64)> = (0..n).map(|_| (rng.between(0, size), rng.between(0, size))).collect();
    let mut table = vec![0; n * n];
    for i in 0..n {
        for j in 0..n {
            table[i * n + j] = (corners[i].0 - corners[j].0).abs() + (corners[i].1 - corners[j].1).abs();
        }
    }
    table
}

/// Random ways, each cut to the shortest way round; different there and back.
pub fn shortest(rng: &mut Rng, n: usize, low: i64, high: i64) -> Vec<i64> {
    let mut table: Vec<i64> = (0..n * n).map(|_| rng.between(low, high)).collect();
    for k in 0..n {
        for i in 0..n {
            for j in 0..n {
                let round = table[i * n + k] + table[k * n + j];
                if i != j && i != k && j != k && table[i * n + j] > round {
                    table[i * n + j] = round;
                }
            }
        }
    }
    table
}

pub fn any(rng: &mut Rng, n: usize) -> Vec<i64> {
    let mut table = match rng.below(8) {
        0..=2 => grid(rng, n, 12),
        3 | 4 => shortest(rng, n, 0, 25),
        5 => shortest(rng, n, 5, 9),
        6 => shortest(rng, n, 0, 1_000_000),
        _ => vec![rng.between(0, 3); n * n],
    };
    // Diagonals are never used: whatever stands there must change nothing.
    if rng.one_in(3) {
        for i in 0..n {
            table[i * n + i] = rng.between(0, 1_000_000);
        }
    }
    table
}
