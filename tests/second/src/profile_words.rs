//! What a run must have met of the profile's number in whole sheets: taken, against its rule, missing,
//! and deciding over the listing.

use crate::class_words::reads;
use crate::gen::draft::to_bytes;
use crate::listing::listing;
use crate::sheet::{read_values, words};
use crate::tally::Tally;

const NUMBERS: [i64; 6] = [2, 3, 255, 256, 257, 4_294_967_295];
const ONE_MORE: &str = "limits: 2 for one number too many alone";
const LISTED_WITH: &str = "profile: a listing that would be another without it";
const LISTED_WITHOUT: &str = "no profile: a listing that would be another with it";

/// Of listings.
pub const OF_LISTINGS: &[&str] = &[LISTED_WITH, LISTED_WITHOUT];

/// Of opening.
pub fn names() -> Vec<String> {
    let mut names = vec![ONE_MORE.to_string()];
    names.extend(NUMBERS.map(alone));
    for vans in 1..=8 {
        names.extend([opened(true, vans), opened(false, vans), missing(vans)]);
    }
    names
}

fn alone(number: i64) -> String {
    format!("profile: 3 for the number {number} alone")
}

fn opened(profile: bool, vans: usize) -> String {
    format!("{}profile: opened with {vans} vans", if profile { "" } else { "no " })
}

fn missing(vans: usize) -> String {
    format!("limits: 2 for the numbers of {vans} vans alone, and none behind them")
}

/// Of a sheet and what opening it answers.
pub fn note_opened(tally: &mut Tally, bytes: &[u8], answer: u64) {
    match answer {
        0 => {
            let Ok(sheet) = read_values(bytes) else { return };
            tally.add(opened(sheet.profile, sheet.v()));
        }
        2 => note_count(tally, &words(bytes)),
        3 => note_number(tally, &words(bytes)),
        _ => {}
    }
}

/// With a number more, or one less, and the count to it, all values are in order.
fn note_count(tally: &mut Tally, words: &[i64]) {
    let Some(&count) = words.first() else { return };
    let mut mended = words.to_vec();
    let last = count as usize;
    match count % 3 {
        0 if last < words.len() => {
            mended.insert(last + 1, 0);
            mended[0] += 1;
            if reads(&mended) {
                tally.add(missing(last / 3));
            }
        }
        2 if last < words.len() => {
            mended.remove(last);
            mended[0] -= 1;
            if reads(&mended) {
                tally.add(ONE_MORE);
            }
        }
        _ => {}
    }
}

/// The number is the only word amiss.
fn note_number(tally: &mut Tally, words: &[i64]) {
    let last = words[0] as usize;
    let mut mended = words.to_vec();
    mended[last] = 0;
    if NUMBERS.contains(&words[last]) && reads(&mended) {
        tally.add(alone(words[last]));
    }
}

/// Of a sheet that is opened and its listing: what the other number would make of it.
pub fn note_listed(tally: &mut Tally, bytes: &[u8], listed: &str) {
    let mut other: Vec<u32> = words(bytes).iter().map(|&word| word as u32).collect();
    let last = other[0] as usize;
    let with = other[last] == 1;
    other[last] = u32::from(!with);
    if listing(&to_bytes(&other)) != listed {
        tally.add(if with { LISTED_WITH } else { LISTED_WITHOUT });
    }
}
