//! The limits section: three numbers a van, and behind them all the one that is for the whole sheet.

use crate::sheet::{section, within, MILLION};
use crate::slips;

#[derive(Clone)]
pub struct Van {
    pub capacity: i64,
    pub limit: i64,
    /// Its class, one of the eight bits.
    pub bit: i64,
}

pub struct Limits {
    /// Where the entries begin and end, in words.
    pub span: (usize, usize),
    pub vans: Vec<Van>,
    /// Clean before soiled, in every van.
    pub profile: bool,
}

/// The eight classes.
const BITS: [i64; 8] = [1, 2, 4, 8, 16, 32, 64, 128];

/// A count that no number of vans makes is as much out of range as 0 or 28.
pub fn read(w: &[i64], at: &mut usize) -> Result<Limits, u64> {
    let left = w.first().map_or(1, |count| count % 3);
    let old = left == 0 && slips::on(slips::LIMITS_WITHOUT_A_PROFILE_TAKEN);
    let astray = left != 1 && !old;
    if astray && !slips::on(slips::LIMITS_SHORT_BEFORE_THEIR_COUNT) {
        return Err(2);
    }
    let span = section(w, at, if old { 3 } else { 4 }, 25, 1)?;
    if astray {
        return Err(2);
    }
    let (numbers, last) = w[span.0..span.1].split_at(span.1 - span.0 - left as usize);
    let vans: Vec<Van> = numbers.chunks(3).map(van).collect::<Result<_, _>>()?;
    let mut profile = profile(last.first().copied().unwrap_or(0))?;
    if slips::on(slips::PROFILE_FROM_THE_LAST_VANS_CLASS) {
        profile = vans[vans.len() - 1].bit == 1;
    }
    Ok(Limits { span, vans, profile })
}

fn van(w: &[i64]) -> Result<Van, u64> {
    let van = Van { capacity: within(w[0], 0, 1000)?, limit: within(w[1], 0, MILLION)?, bit: w[2] };
    let two_taken =
        slips::on(slips::TWO_BITS_TAKEN) && (0..256).contains(&van.bit) && van.bit.count_ones() == 2;
    if !BITS.contains(&van.bit) && !two_taken {
        return Err(3);
    }
    Ok(van)
}

/// 1 for the profile, 0 without it.
fn profile(word: i64) -> Result<bool, u64> {
    match if slips::on(slips::PROFILE_READ_AS_A_BYTE) { word % 256 } else { word } {
        0 => Ok(false),
        1 => Ok(true),
        2 if slips::on(slips::PROFILE_2_TAKEN) => Ok(true),
        _ if slips::on(slips::ANY_PROFILE_TAKEN) => Ok(true),
        _ => Err(3),
    }
}
