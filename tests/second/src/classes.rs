//! What a run must have met of van classes in whole sheets: starts and ends that do not admit a van
//! (7), and wards that admit some vans or none.

use crate::sheet::{read_values, Sheet};
use crate::tally::Tally;
use crate::whole::{shuts_out, triangle_broken};

const FOUR: &str = "class: 4 beside a start or end that does not admit a van";
const SIX: &str = "class: 6 beside a start or end that does not admit a van";
const TRIANGLE: &str = "class: 7 beside a broken triangle";
const START: &str = "class: 7 for the start alone";
const END: &str = "class: 7 for the end alone";
const LONE: &str = "class: 7 for a lone van";
const FIRST: &str = "class: 7 for the first of several vans alone";
const MIDDLE: &str = "class: 7 for a van in the middle alone";
const LAST: &str = "class: 7 for the last of several vans alone";
const SHARED: &str = "class: opened with vans that share a class";
const DIFFERENT: &str = "class: opened with vans of different classes";
const NO_MORE: &str = "class: opened, start and end admit the vans' classes and no other";
const TOP_BIT: &str = "class: opened with a van of bit 128";
const FULL_SET: &str = "class: opened with a ward of set 255";
const NOBODY: &str = "class: opened with a ward that admits no van";
const IDLE: &str = "class: opened with a van that no ward admits";
const FIRST_ONLY: &str = "class: opened with a ward that admits the first of several vans alone";
const LAST_ONLY: &str = "class: opened with a ward that admits the last of several vans alone";

pub const NAMES: &[&str] = &[
    FOUR, SIX, TRIANGLE, START, END, LONE, FIRST, MIDDLE, LAST, SHARED, DIFFERENT, NO_MORE, TOP_BIT,
    FULL_SET, NOBODY, IDLE, FIRST_ONLY, LAST_ONLY,
];

/// Of a sheet and what opening it answers.
pub fn note_opened(tally: &mut Tally, bytes: &[u8], answer: u64) {
    let Ok(sheet) = read_values(bytes) else { return };
    match answer {
        0 => {
            note_vans(tally, &sheet);
            note_wards(tally, &sheet);
        }
        4 if shuts_out(&sheet) => tally.add(FOUR),
        6 if shuts_out(&sheet) => tally.add(SIX),
        7 => note_refused(tally, &sheet),
        _ => {}
    }
}

/// The vans that a node admits.
fn admitted(sheet: &Sheet, node: usize) -> Vec<usize> {
    (0..sheet.v()).filter(|&van| sheet.admits(node, van)).collect()
}

fn note_refused(tally: &mut Tally, sheet: &Sheet) {
    let (v, end) = (sheet.v(), sheet.n() - 1);
    if triangle_broken(sheet) {
        tally.add(TRIANGLE);
    }
    match (admitted(sheet, 0).len() == v, admitted(sheet, end).len() == v) {
        (false, true) => tally.add(START),
        (true, false) => tally.add(END),
        _ => {}
    }
    let out: Vec<usize> = (0..v).filter(|&van| !sheet.admits(0, van) || !sheet.admits(end, van)).collect();
    match out[..] {
        [_] if v == 1 => tally.add(LONE),
        [0] => tally.add(FIRST),
        [van] if van + 1 == v => tally.add(LAST),
        [_] => tally.add(MIDDLE),
        _ => {}
    }
}

fn note_vans(tally: &mut Tally, sheet: &Sheet) {
    let mut bits: Vec<i64> = (0..sheet.v()).map(|van| sheet.van(van).bit).collect();
    bits.sort();
    bits.dedup();
    let all: i64 = bits.iter().sum();
    let ends = [0, sheet.n() - 1];
    tally.add_held([
        (SHARED, bits.len() < sheet.v()),
        (DIFFERENT, bits.len() > 1),
        (NO_MORE, ends.iter().all(|&node| sheet.nodes[node].classes == all)),
        (TOP_BIT, bits.contains(&128)),
    ]);
}

fn note_wards(tally: &mut Tally, sheet: &Sheet) {
    let last = sheet.v() - 1;
    let wards: Vec<Vec<usize>> = (1..sheet.n() - 1).map(|x| admitted(sheet, x)).collect();
    let any_ward = |vans: &[usize]| wards.iter().any(|ward| ward == vans);
    tally.add_held([
        (FULL_SET, sheet.nodes[1..sheet.n() - 1].iter().any(|ward| ward.classes == 255)),
        (NOBODY, any_ward(&[])),
        (IDLE, !wards.is_empty() && (0..=last).any(|van| wards.iter().all(|ward| !ward.contains(&van)))),
        (FIRST_ONLY, last > 0 && any_ward(&[0])),
        (LAST_ONLY, last > 0 && any_ward(&[last])),
    ]);
}
