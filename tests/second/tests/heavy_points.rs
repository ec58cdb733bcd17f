//! Readings of loads that can never ride (02, No. 5) that are easy to get wrong, each worked by hand on
//! 01's sheet: wards 1 and 2, a van that takes 2, a transfer of 2 from 1 to 2. So 01's own load is just
//! what the van can take.

mod limits;
mod runs;

use limits::of_class_1;
use runs::run_on;
use second::face::{open, open_places, verdict};
use second::fleet::Fleet;
use second::listing::listing;
use second::papers::SHEET;
use second::sheet::stretch;
use second::step::{step, Outcome};
use second::text::to_bytes;

const TOO_HEAVY: &str = "1, 1 1 0 3";

fn text_of(vans: &str, jobs: &str) -> String {
    SHEET.replacen("4 2 60 1 0", &of_class_1(vans), 1).replacen("1, 3 1 2 2", jobs, 1)
}

fn sheet_of(vans: &str, jobs: &str) -> Vec<u8> {
    to_bytes(&text_of(vans, jobs)).unwrap()
}

fn opened(vans: &str, jobs: &str) -> u64 {
    open(&sheet_of(vans, jobs)).0
}

fn run(bytes: &[u8], steps: &[[u64; 3]]) -> Outcome {
    run_on(bytes, 64, steps)
}

#[test]
fn refused_is_what_is_above_not_what_just_fits() {
    for (jobs, number) in [
        ("1, 1 1 0 2", 0),
        ("1, 1 1 0 3", 6),
        ("1, 2 1 0 2", 0),
        ("1, 2 1 0 3", 6),
        ("1, 3 1 2 2", 0),
        ("1, 3 1 2 3", 6),
        ("1, 1 1 0 1000", 6),
        ("1, 1 1 0 1001", 3),
    ] {
        assert_eq!(opened("2 60", jobs), number, "{jobs}");
    }
    for (vans, number) in [("0 60", 6), ("999 60", 6), ("1000 60", 0)] {
        assert_eq!(opened(vans, "1, 2 2 0 1000"), number, "{vans}");
    }
}

/// The clerk's slip, and what the program prints.
#[test]
fn twenty_cages_for_a_van_of_twelve() {
    let bytes = sheet_of("12 60", "2, 1 2 0 5, 1 1 0 20");
    assert_eq!(open(&bytes), (6, Fleet::zero()));
    assert_eq!(listing(&bytes), "refused 6\n");
    assert_eq!(opened("12 60", "2, 1 2 0 5, 1 1 0 12"), 0);
}

#[test]
fn any_of_the_jobs() {
    for (jobs, number) in [
        ("3, 1 1 0 3, 2 1 0 1, 3 1 2 1", 6),
        ("3, 2 1 0 1, 3 1 2 3, 1 1 0 1", 6),
        ("3, 3 1 2 1, 1 1 0 1, 2 1 0 3", 6),
        ("3, 3 1 2 1, 1 1 0 1, 2 1 0 2", 0),
    ] {
        assert_eq!(opened("2 60", jobs), number, "{jobs}");
    }
}

#[test]
fn each_job_alone() {
    assert_eq!(opened("2 60", "2, 1 1 0 2, 1 2 0 2"), 0);
    assert_eq!(opened("2 60", "3, 1 1 0 2, 2 1 0 2, 3 1 2 2"), 0);
    assert_eq!(opened("0 60", "0"), 0);
}

#[test]
fn the_largest_capacity_of_the_fleet_counts() {
    for (vans, number) in [
        ("2 60, 1 60", 0),
        ("1 60, 2 60", 0),
        ("0 60, 2 60, 0 60", 0),
        ("0 0, 0 0, 0 0, 0 0, 0 0, 0 0, 0 0, 2 0", 0),
        ("0 0, 0 0, 0 0, 0 0, 0 0, 0 0, 0 0, 1 0", 6),
        // Two vans that take 1 do not take 2 between them; and metres are no cages.
        ("1 60, 1 60", 6),
        ("0 1000, 1 1000", 6),
    ] {
        assert_eq!(opened(vans, "1, 3 1 2 2"), number, "{vans}");
    }
}

/// Van 0 takes 1, so its two places of the transfer fall; van 1 takes 2 and keeps its own.
#[test]
fn a_van_too_small_for_a_job_leaves_it_to_another() {
    let bytes = sheet_of("1 60, 2 60", "1, 3 1 2 2");
    let out = run(&bytes, &[[5, 0, 0]]);
    assert_eq!((out.answer, out.rounds), (0, 1));
    assert_eq!((out.fleet.vans[0].open_places(), out.fleet.vans[1].open_places()), (0, 2));
    assert_eq!(verdict(&bytes, &out.fleet), (0, 1));
}

#[test]
fn four_wins_over_six_also_for_other_jobs() {
    for jobs in [
        "2, 1 1 0 3, 1 1 0 3",
        "2, 1 1 0 1, 1 1 0 3",
        "3, 1 1 0 3, 2 2 0 1, 2 2 0 1",
        "3, 3 1 2 1, 3 2 1 1, 1 1 0 3",
    ] {
        assert_eq!(opened("2 60", jobs), 4, "{jobs}");
    }
}

#[test]
fn one_to_three_win_over_six_wherever_they_stand() {
    let text = text_of("2 60", TOO_HEAVY);
    let at = |old: &str, new: &str| open(&to_bytes(&text.replacen(old, new, 1)).unwrap()).0;
    assert_eq!(at("16, 0 10", "16, 1000001 10"), 3);
    assert_eq!(at("| 8, 5 0 0", "| 2001, 5 0 0"), 2);
    assert_eq!(at("| 8, 5 0 0", "| 9, 5 0 0"), 1);
    assert_eq!(at("7 0 0", "7 0 0 0"), 1);
    assert_eq!(opened("2 60", "2, 1 1 0 3, 1 3 0 1"), 3);
}

/// 31 from 3 to 0 is more than by way of 1, 20 and 10.
fn broken_triangle(jobs: &str) -> Vec<u8> {
    to_bytes(&text_of("2 60", jobs).replacen("10 30 20 10 0", "10 31 20 10 0", 1)).unwrap()
}

#[test]
fn six_wins_over_five() {
    assert_eq!(open(&broken_triangle("1, 3 1 2 2")).0, 5);
    assert_eq!(open(&broken_triangle(TOO_HEAVY)), (6, Fleet::zero()));
}

#[test]
fn a_section_of_such_a_sheet_is_empty() {
    let (well, heavy) = (sheet_of("2 60", "1, 1 1 0 2"), sheet_of("2 60", TOO_HEAVY));
    assert_eq!(stretch(&well, 1), [2, 0, 0, 0, 60, 0, 0, 0, 1, 0, 0, 0, 0, 0, 0, 0]);
    for number in 1..=6 {
        assert!(!stretch(&well, number).is_empty(), "{number}");
        assert!(stretch(&heavy, number).is_empty(), "{number}");
    }
    assert!(stretch(&broken_triangle(TOO_HEAVY), 1).is_empty());
}

/// Every kind, and one that is none: nothing of the step is looked at. On the sheet whose load just
/// fits, 0 is the answer but for 7, which has no level to go back to (18).
#[test]
fn steps_are_refused_and_change_nothing() {
    let trail: Vec<u64> = (1..=40).collect();
    for sheet in [sheet_of("2 60", TOO_HEAVY), broken_triangle(TOO_HEAVY)] {
        for words in [[1, 0, 1], [2, 0, 1], [3, 1, 0], [4, 1, 0], [5, 0, 0], [6, 0, 0], [7, 0, 0], [8, 1, 0]]
        {
            let out = step(&sheet, &Fleet::all_open(4, 1), &trail, words);
            assert_eq!((out.answer, out.rounds), (6, 0), "{words:?}");
            assert_eq!((out.fleet, out.trail), (Fleet::all_open(4, 1), trail.clone()), "{words:?}");
            let well = step(&sheet_of("2 60", "1, 1 1 0 2"), &Fleet::all_open(4, 1), &trail, words);
            assert_eq!(well.answer, if words[0] == 7 { 18 } else { 0 }, "{words:?}");
        }
        assert_eq!(step(&sheet, &Fleet::all_open(4, 1), &trail, [9, 0, 0]).answer, 6);
        assert_eq!(step(&sheet, &Fleet::all_open(4, 1), &[], [257, 0, 1]).answer, 6);
    }
}

#[test]
fn open_places_and_verdict_are_refused() {
    let (well, heavy) = (sheet_of("2 60", "1, 1 1 0 2"), sheet_of("2 60", TOO_HEAVY));
    let fresh = Fleet::all_open(4, 1);
    assert_eq!((open_places(&well, &fresh), verdict(&well, &fresh)), ((0, 2), (0, 1)));
    assert_eq!((open_places(&heavy, &fresh), verdict(&heavy, &fresh)), ((6, 0), (6, 0)));
}

/// Also a fleet of more vans than the sheet has.
#[test]
fn six_wins_over_nineteen() {
    let (well, heavy) = (sheet_of("2 60", "1, 1 1 0 2"), sheet_of("2 60", TOO_HEAVY));
    for fleet in [Fleet::zero(), Fleet::all_open(4, 2), Fleet::all_open(5, 1)] {
        for (sheet, number) in [(&well, 19), (&heavy, 6)] {
            let out = step(sheet, &fleet, &[7; 9], [5, 0, 0]);
            assert_eq!((out.answer, &out.fleet, out.trail), (number, &fleet, vec![7; 9]));
            assert_eq!((open_places(sheet, &fleet), verdict(sheet, &fleet)), ((number, 0), (number, 0)));
        }
    }
}

/// P9's two soiled jobs. With 2 aboard from ward 1 on, ward 2's load of 1 makes 3 there: too much for
/// 2, just right for 3. Nothing else is near its edge, with the door of ward 2 shut at 100. A van that
/// takes 1 is too small for ward 1's job alone.
#[test]
fn two_jobs_that_are_too_much_together() {
    let jobs = "2, 2 1 0 2, 2 2 0 1";
    let sheet = |vans: &str| to_bytes(&text_of(vans, jobs).replacen("0 25 5", "0 100 5", 1)).unwrap();
    for (vans, rounds, left) in [("2 60", 1, 0), ("3 60", 0, 0b011)] {
        let out = run(&sheet(vans), &[[1, 0, 1], [5, 0, 0]]);
        assert_eq!((out.answer, out.rounds, out.fleet.vans[0].sets[2]), (0, rounds, left), "{vans}");
        assert_eq!(verdict(&sheet(vans), &out.fleet), (0, 1), "{vans}");
    }
    assert_eq!(open(&sheet("1 60")).0, 6);
}
