//! Readings of 01 that are easy to get wrong, one small example each.

mod runs;

use runs::run_on;
use second::face::{open, open_places, verdict};
use second::fleet::Fleet;
use second::gen::draft::to_bytes as words_to_bytes;
use second::listing::listing;
use second::papers::{bytes_with, LATEST_3, SHEET};
use second::sheet::stretch;
use second::state::State;
use second::step::{step, Outcome};
use second::text::to_bytes;

fn opened(words: &[u32]) -> u64 {
    open(&words_to_bytes(words)).0
}

fn opened_text(text: &str) -> u64 {
    open(&to_bytes(text).unwrap()).0
}

/// 01's nodes and tables with these jobs.
fn with_jobs(jobs: &str) -> Vec<u8> {
    to_bytes(&SHEET.replace("1, 3 1 2 2", jobs)).unwrap()
}

fn run(bytes: &[u8], steps: &[[u64; 3]]) -> Outcome {
    run_on(bytes, 64, steps)
}

#[test]
fn length_comes_first() {
    assert_eq!(open(&[3, 0, 0, 0, 9]).0, 1);
    assert_eq!(opened(&[3]), 2);
}

#[test]
fn count_then_shortness_then_values() {
    assert_eq!(opened(&[4, 9999, 0, 1]), 1);
    assert_eq!(opened(&[4, 9999, 0, 1, 0]), 3);
    assert_eq!(opened(&[4, 9, 0, 1, 0]), 1);
    assert_eq!(opened(&[4, 9, 0, 1, 0, 1]), 2);
}

#[test]
fn the_library_has_no_length_limit_but_the_program_has() {
    for (head, number) in [(vec![3], 2), (vec![4, 1001], 3)] {
        let mut words = head;
        words.resize(15_100, 0);
        let bytes = words_to_bytes(&words);
        assert_eq!(open(&bytes).0, number);
        assert_eq!(listing(&bytes), "refused 1\n");
    }
}

#[test]
fn steps_count() {
    let at = bytes_with(&[]).len() / 4 - 25;
    for (count, number) in [(9, 1), (7, 1), (2001, 2), (8, 0)] {
        assert_eq!(open(&bytes_with(&[(at, count)])).0, number, "{count}");
    }
}

#[test]
fn jobs_that_are_wrong_or_doubled() {
    for (jobs, number) in [
        ("1, 1 1 2 1", 3),
        ("1, 3 1 1 1", 3),
        ("1, 1 3 0 1", 3),
        ("1, 4 1 0 1", 3),
        ("1, 2 1 0 0", 3),
        ("1, 2 1 0 1001", 3),
        ("2, 3 1 2 1, 3 2 1 1", 4),
        ("2, 1 1 0 1, 1 1 0 1", 4),
        ("3, 1 1 0 1, 2 1 0 1, 3 1 2 1", 0),
    ] {
        assert_eq!(open(&with_jobs(jobs)).0, number, "{jobs}");
    }
}

#[test]
fn four_comes_after_all_values_and_leftovers_and_before_five() {
    let doubled = "2, 1 1 0 1, 1 1 0 1";
    let text = SHEET.replace("1, 3 1 2 2", doubled);
    assert_eq!(opened_text(&text.replacen("16, 0 10", "16, 1000001 10", 1)), 3);
    assert_eq!(opened_text(&(text.clone() + " 0")), 1);
    assert_eq!(opened_text(&text.replacen("16, 0 10 20 30", "16, 0 10 20 31", 1)), 4);
}

#[test]
fn triangles_of_roads_nobody_drives_count_too() {
    assert_eq!(opened_text(&SHEET.replacen("10 30 20 10 0", "10 31 20 10 0", 1)), 5);
    assert_eq!(opened_text(&SHEET.replacen("16, 0 10", "16, 7 10", 1)), 0);
    let refused = open(&to_bytes(&SHEET.replacen("10 30 20 10 0", "10 31 20 10 0", 1)).unwrap());
    assert_eq!(refused.1, Fleet::zero());
}

#[test]
fn a_sheet_refused_by_five_still_has_sections_and_takes_steps() {
    let bytes = to_bytes(&SHEET.replacen("10 30 20 10 0", "10 31 20 10 0", 1)).unwrap();
    assert_eq!(stretch(&bytes, 1), &bytes[4..20]);
    assert_eq!(step(&bytes, &Fleet::all_open(4, 1), &[0; 8], [1, 0, 2]).answer, 0);
    assert_eq!(verdict(&bytes, &Fleet::all_open(4, 1)), (0, 1));
    assert_eq!(stretch(&bytes, 7), &[] as &[u8]);
    assert_eq!(stretch(&bytes, 1 << 32 | 1), &[] as &[u8]);
}

#[test]
fn a_refused_sheet_beats_a_broken_state() {
    assert_eq!(open_places(&[], &Fleet::zero()), (1, 0));
    assert_eq!(verdict(&bytes_with(&[(0, 3)]), &Fleet::all_open(4, 1)), (2, 0));
    assert_eq!(step(&bytes_with(&[]), &Fleet::zero(), &[], [9, 9, 9]).answer, 19);
}

#[test]
fn records_above_the_room_are_a_broken_state() {
    let bytes = bytes_with(&[]);
    let mut fleet = Fleet::all_open(4, 1);
    fleet.vans[0].records = 5;
    assert_eq!(step(&bytes, &fleet, &[0; 9], [4, 1, 0]).answer, 19);
    assert_eq!(step(&bytes, &fleet, &[0; 10], [4, 1, 0]).answer, 17);
    assert_eq!(step(&bytes, &fleet, &[0; 12], [4, 1, 0]).answer, 0);
    fleet.vans[0].records = 1 << 63;
    assert_eq!(open_places(&bytes, &fleet), (0, 2));
}

#[test]
fn order_of_a_steps_refusals() {
    let bytes = bytes_with(&[]);
    for (words, answer) in [
        ([256, 0, 1], 11),
        ([9, 0, 1], 11),
        ([257, 0, 1], 21),
        ([1, 3, 1], 12),
        ([1, 0, 257], 12),
        ([1, 2, 1], 14),
        ([1, 1, 1], 14),
        ([2, 2, 1], 14),
        ([7, 0, 0], 18),
        ([5, u64::MAX, 99], 0),
        ([3, 3, 0], 12),
        ([4, 0, 0], 12),
    ] {
        assert_eq!(step(&bytes, &Fleet::all_open(4, 1), &[0; 32], words).answer, answer, "{words:?}");
    }
    assert_eq!(run(&bytes, &[[1, 0, 2], [1, 1, 2]]).answer, 13);
}

#[test]
fn owed_nodes_are_not_excluded_even_with_no_place_open() {
    let bytes = bytes_with(&[]);
    assert_eq!(run(&bytes, &[[4, 1, 0], [2, 0, 1], [3, 1, 0]]).answer, 16);
    assert_eq!(run(&bytes, &[[2, 0, 1], [3, 1, 0]]).answer, 0);
    assert_eq!(run(&bytes, &[[2, 0, 1], [3, 1, 0]]).fleet.records(), 1);
}

#[test]
fn a_placed_node_keeps_its_mark() {
    let bytes = bytes_with(&[]);
    let steps = [[4, 2, 0], [6, 0, 0], [1, 0, 2], [7, 0, 0], [3, 2, 0]];
    assert_eq!(run(&bytes, &steps).answer, 16);
}

#[test]
fn stepping_back_without_records_reads_no_trail() {
    let bytes = bytes_with(&[]);
    let level = step(&bytes, &Fleet::all_open(4, 1), &[], [6, 0, 0]);
    let back = step(&bytes, &level.fleet, &[], [7, 0, 0]);
    assert_eq!((back.answer, back.fleet), (0, Fleet::all_open(4, 1)));
}

/// Route 0 2 3 with node 1 open in leg 2 only, and a record that placed 2.
fn placed_by_hand() -> Fleet {
    let mut state = State::all_open(4);
    state.put_path(&[0, 2, 3]);
    state.sets = [0; 64];
    state.sets[1] = 0b100;
    state.records = 1;
    state.level_count = 1;
    Fleet::lone(state)
}

#[test]
fn undoing_a_placing_cuts_its_leg_and_adds_nothing() {
    let back = step(&bytes_with(&[]), &placed_by_hand(), &[514, 1], [7, 0, 0]);
    assert_eq!((back.answer, back.fleet.vans[0].sets[1], back.fleet.vans[0].sets[2]), (0, 0, 1));
    assert_eq!(back.trail, [514, 1]);
}

#[test]
fn records_that_do_not_fit() {
    let bytes = bytes_with(&[]);
    for record in [
        [514, 0],
        [514, 0b101],
        [514, 0b1001],
        [513, 1],
        [514 | 1 << 32, 1],
        [257, 0b100],
        [257, 0b1000],
        [769, 0],
        [1026, 1],
        [1026, 0],
        [1281, 0],
    ] {
        let out = step(&bytes, &placed_by_hand(), &record, [7, 0, 0]);
        assert_eq!((out.answer, out.fleet), (20, placed_by_hand()), "{record:?}");
    }
}

#[test]
fn each_job_is_tested_alone() {
    let text = SHEET.replace("1, 3 1 2 2", "2, 1 1 0 2, 3 2 1 1").replace("0 25 5", "0 100 5");
    let out = run(&to_bytes(&text).unwrap(), &[[5, 0, 0]]);
    assert_eq!((out.rounds, out.fleet.open_places()), (0, 2));
}

/// With 1 placed, 2 is owed and open in both legs. Before 1 it is in wrong order, and behind 1 it is
/// begun at 25 and done at 30, when its door is shut since 25: settling leaves it nothing.
#[test]
fn the_verdict_does_not_settle() {
    let bytes = bytes_with(&[]);
    let placed = run(&bytes, &[[1, 0, 1]]);
    assert_eq!(verdict(&bytes, &placed.fleet), (0, 1));
    let settled = run(&bytes, &[[1, 0, 1], [5, 0, 0]]);
    assert_eq!(verdict(&bytes, &settled.fleet), (0, 0));
}

#[test]
fn a_dead_state_is_settled_like_any_other() {
    let out = run(&bytes_with(&[(LATEST_3, 10)]), &[[5, 0, 0]]);
    assert_eq!((out.answer, out.rounds, out.fleet.open_places()), (0, 1, 0));
}
