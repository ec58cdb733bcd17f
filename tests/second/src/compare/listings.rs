//! One sheet a process, against the other program's listing.

use std::path::Path;

use super::coverage::{note_listing, of_listings};
use super::runner::{self, End};
use super::{Plan, SHOWN};
use crate::gen::{classes, damage, edges, fleets, full, profiles, refused, sheets, steps};
use crate::listing::listing;
use crate::papers::{bytes_with, CAPACITY, LATEST_2, LATEST_3, LIMIT, NODES};
use crate::rng::Rng;
use crate::tally::Tally;

/// Sheet `number` of the run with this seed.
pub fn sheet(seed: u64, number: u64) -> Vec<u8> {
    let mut rng = Rng::of(seed ^ 0x6c69_7374, number);
    let rng = &mut rng;
    let turn = number / 18;
    match number % 18 {
        0 => now_and_then(rng, turn),
        1 => whole_day(rng),
        family @ 2..=7 => {
            let size = sheets::any_size(rng);
            let made = sheets::with_steps(rng, size, 6);
            match family {
                2 | 3 => damage::sheet(rng, made),
                4 | 5 => refused::sheet(rng, made, damage::heavy),
                _ => refused::sheet(rng, made, classes::shut_out),
            }
        }
        8 => levels_only(rng),
        9 => two_nodes(rng),
        10..=13 => at_the_edge(rng),
        _ => {
            let size = sheets::any_size(rng);
            let count = 5 + rng.below(50);
            sheets::with_steps(rng, size, count).bytes()
        }
    }
}

/// What need not be met so often, by turns.
fn now_and_then(rng: &mut Rng, turn: u64) -> Vec<u8> {
    match turn % 4 {
        0 => fullest(rng, 0),
        1 => fullest(rng, 1 + turn as usize % 5),
        2 => examples(rng, turn / 4),
        _ => without_steps(rng),
    }
}

/// The longest sheet there is, or with some bytes too many.
fn fullest(rng: &mut Rng, more: usize) -> Vec<u8> {
    let mut draft = full::day(rng, 64, 8);
    draft.profile = rng.below(2) as u32;
    classes::deal(rng, &mut draft);
    draft.steps = (0..2000).map(|_| [*rng.pick(&[6, 7, 9]), 0, 0]).collect();
    let mut bytes = draft.bytes();
    bytes.resize(bytes.len() + more, 0);
    bytes
}

/// 01's own examples: nothing at all, 65 nodes, and its sheet with one number altered.
fn examples(rng: &mut Rng, turn: u64) -> Vec<u8> {
    match turn % 4 {
        0 => vec![],
        1 => bytes_with(&[(NODES, 65)]),
        _ => {
            let doors = [(LATEST_2, 24), (LATEST_2, 30), (LATEST_2, 19), (LATEST_3, 10)];
            let limits = [(LIMIT, 30), (LIMIT, 29), (CAPACITY, 1), (CAPACITY, 2)];
            bytes_with(&[*rng.pick(&[doors, limits].concat())])
        }
    }
}

fn without_steps(rng: &mut Rng) -> Vec<u8> {
    let size = sheets::any_size(rng);
    let vans = sheets::any_vans(rng);
    sheets::plain(rng, size, vans).bytes()
}

fn whole_day(rng: &mut Rng) -> Vec<u8> {
    let vans = sheets::any_vans(rng);
    let mut draft = full::day(rng, 64, vans);
    profiles::deal(rng, &mut draft);
    classes::deal(rng, &mut draft);
    draft.steps = full::story(rng, &draft.sheet(), 60);
    draft.bytes()
}

/// Bent to the edge of a test for one van of a fleet that some steps lead to.
fn at_the_edge(rng: &mut Rng) -> Vec<u8> {
    let size = sheets::any_size(rng).min(20);
    let vans = sheets::any_vans(rng);
    let mut draft = sheets::plain(rng, size, vans);
    edges::loosen(rng, &mut draft);
    let count = rng.below(8);
    let (fleet, _) = fleets::reached(rng, &draft.sheet(), count);
    for _ in 0..1 + rng.below(3) {
        let van = rng.below(vans);
        edges::sharpen(rng, &mut draft, van, &fleet.vans[van]);
    }
    draft.steps = steps::list(rng, &draft.sheet(), 30);
    draft.bytes()
}

/// Levels to the 65th and back below the first.
fn levels_only(rng: &mut Rng) -> Vec<u8> {
    let vans = sheets::any_vans(rng);
    let mut draft = sheets::plain(rng, 5, vans);
    let place = |i: u32| [256 * (i % vans as u32) + 1, 0, 1 + i % 3];
    draft.steps = (0..70).map(|i| if i % 9 == 3 { place(i) } else { [6 + 256 * i, 0, 0] }).collect();
    draft.steps.extend([[7, 0, 0]; 70]);
    draft.bytes()
}

fn two_nodes(rng: &mut Rng) -> Vec<u8> {
    let vans = sheets::any_vans(rng);
    let mut draft = sheets::plain(rng, 2, vans);
    draft.steps = steps::list(rng, &draft.sheet(), 12);
    draft.bytes()
}

pub fn write_files(plan: &Plan, folder: &Path) -> Result<u64, String> {
    for number in 0..plan.cases {
        let bytes = sheet(plan.seed, number);
        runner::put_pair(folder, &format!("listing-{number:04}"), &bytes, listing(&bytes).as_bytes())?;
    }
    Ok(plan.cases)
}

pub fn compare(plan: &Plan) -> Result<(u64, Tally), String> {
    let mut tally = of_listings();
    let mut differences = 0;
    for number in 0..plan.cases {
        if differences >= plan.stop {
            break;
        }
        let bytes = sheet(plan.seed, number);
        let ours = listing(&bytes);
        note_listing(&mut tally, &bytes, &ours);
        let theirs = match runner::run(&plan.program, bytes.clone(), End::Well) {
            Ok(theirs) => theirs,
            Err(why) => why.into_bytes(),
        };
        if theirs == ours.as_bytes() {
            continue;
        }
        differences += 1;
        if differences <= SHOWN {
            tell(plan, number, &bytes, &ours, &theirs)?;
        }
    }
    Ok((differences, tally))
}

fn tell(plan: &Plan, number: u64, bytes: &[u8], ours: &str, theirs: &[u8]) -> Result<(), String> {
    let came = String::from_utf8_lossy(theirs).to_string();
    let mut pairs = ours
        .lines()
        .map(Some)
        .chain(std::iter::repeat(None))
        .zip(came.lines().map(Some).chain(std::iter::repeat(None)));
    let (a, b) = pairs.find(|(a, b)| a != b || a.is_none()).unwrap_or((None, None));
    println!("sheet {number} differs (seed {}):", plan.seed);
    println!("  expected {}\n  came     {}", a.unwrap_or("no line"), b.unwrap_or("no line"));
    if let Some(folder) = &plan.keep {
        runner::keep(folder, &format!("listing-{}-{number}", plan.seed), bytes, ours.as_bytes(), theirs)?;
    }
    Ok(())
}
