//! What a run must have met of loads that can never ride, and of loads that just can.

use crate::facts::Facts;
use crate::refused::Names;
use crate::sheet::{read_values, Job, Sheet};
use crate::state::State;
use crate::tally::Tally;
use crate::whole::{never_rides, triangle_broken};

const FOUR: &str = "load: 4 beside a load above every capacity";
const TRIANGLE: &str = "load: 6 beside a broken triangle";
const BY_ONE: &str = "load: 6 for one load, by 1";
const LAST_JOB: &str = "load: 6 for the last of several jobs alone";
const KINDS: [&str; 3] =
    ["load: 6 for a clean job alone", "load: 6 for a soiled job alone", "load: 6 for a transfer alone"];
const EQUAL: &str = "load: opened with one equal to the largest capacity";
const NOT_THE_FIRST: &str = "load: opened with one above the first van's capacity";
const LAST_VAN: &str = "load: opened with one that the last van alone can take";
const FIRST_VAN: &str = "load: opened with one that the first van alone can take";
const TOGETHER: &str = "load: opened with some that are too much together";
const NO_JOBS: &str = "load: opened without any, every capacity 0";

/// Of opening.
pub const OF_SHEETS: &[&str] = &[
    FOUR,
    TRIANGLE,
    BY_ONE,
    LAST_JOB,
    KINDS[0],
    KINDS[1],
    KINDS[2],
    EQUAL,
    NOT_THE_FIRST,
    LAST_VAN,
    FIRST_VAN,
    TOGETHER,
    NO_JOBS,
];

/// Of steps and questions that 6 refuses.
pub const REFUSED: Names = Names {
    step_alone: "load: 6 for a step that would run otherwise",
    step_form: "load: 6 for a step beside a fleet out of form",
    asked_alone: "load: 6 for a question about a fleet in form",
    asked_form: "load: 6 for a question about a fleet out of form",
};

const JUST_FITS: &str = "load: settling a lone van, a job just fits beside others";
const BY_ONE_TOO_MUCH: &str = "load: settling a lone van, a job beside others is 1 too much";

/// Of settling.
pub const OF_SETTLING: &[&str] = &[JUST_FITS, BY_ONE_TOO_MUCH];

/// Of a sheet and what opening it answers.
pub fn note_opened(tally: &mut Tally, bytes: &[u8], answer: u64) {
    let Ok(sheet) = read_values(bytes) else { return };
    match answer {
        0 => note_carried(tally, &sheet),
        4 if never_rides(&sheet) => tally.add(FOUR),
        6 => note_refused(tally, &sheet),
        _ => {}
    }
}

fn note_carried(tally: &mut Tally, sheet: &Sheet) {
    let (most, last) = (sheet.largest_capacity(), sheet.v() - 1);
    let Some(load) = sheet.jobs.iter().map(|job| job.load).max() else {
        if most == 0 {
            tally.add(NO_JOBS);
        }
        return;
    };
    let carriers: Vec<usize> = (0..=last).filter(|&van| sheet.van(van).capacity >= load).collect();
    tally.add_held([
        (EQUAL, load == most),
        (NOT_THE_FIRST, carriers[0] > 0),
        (LAST_VAN, last > 0 && carriers == [last]),
        (FIRST_VAN, last > 0 && carriers == [0]),
        (TOGETHER, sheet.jobs.iter().map(|job| job.load).sum::<i64>() > most),
    ]);
}

fn note_refused(tally: &mut Tally, sheet: &Sheet) {
    let most = sheet.largest_capacity();
    if triangle_broken(sheet) {
        tally.add(TRIANGLE);
    }
    let above: Vec<(usize, &Job)> = sheet.jobs.iter().enumerate().filter(|(_, j)| j.load > most).collect();
    if let [(at, job)] = above[..] {
        tally.add(KINDS[job.kind as usize - 1]);
        if job.load == most + 1 {
            tally.add(BY_ONE);
        }
        if at > 0 && at + 1 == sheet.jobs.len() {
            tally.add(LAST_JOB);
        }
    }
}

/// Of a lone van that is settled, whose capacity no load is above: open places of clean and soiled
/// jobs at the edge of the load test.
pub fn note_settled(tally: &mut Tally, sheet: &Sheet, state: &State) {
    let facts = Facts::of(sheet, 0, state);
    for job in sheet.jobs.iter().filter(|job| sheet.v() == 1 && job.kind < 3) {
        for i in (0..=facts.last_leg()).filter(|&i| state.is_open(job.a, facts.path[i])) {
            let legs = if job.kind == 1 { &facts.h[..=i] } else { &facts.h[i..] };
            match legs.iter().max() {
                Some(&aboard) if aboard + job.load == facts.capacity && aboard > 0 => tally.add(JUST_FITS),
                Some(&aboard) if aboard + job.load == facts.capacity + 1 => tally.add(BY_ONE_TOO_MUCH),
                _ => {}
            }
        }
    }
}
