//! Readings of the shut door (02, No. 3) that are easy to get wrong, 3-a to 3-e, each worked by hand
//! on 01's ways (0 to 1 is 10, 0 to 2 is 20, 0 to 3 is 30, 1 to 2 is 10, 1 to 3 is 20, 2 to 3 is 10)
//! with nodes of its own and, where nothing else is said, no jobs: so the windows alone decide.

mod runs;

use runs::run_on;
use second::face::{open, verdict};
use second::facts::Facts;
use second::fleet::Fleet;
use second::papers::SHEET;
use second::rounds::keeps_rules;
use second::sheet::read;
use second::state::State;
use second::step::Outcome;
use second::text::to_bytes;

const NODES: &str = "0 0 0 1, 0 100 5 1, 0 25 5 1, 0 100 0 1";

/// 01's sheet with these nodes, all of class set 1, and without jobs.
fn text_of(nodes: &str) -> String {
    let nodes = nodes.replace(',', " 1,") + " 1";
    SHEET.replacen(NODES, &nodes, 1).replacen("1, 3 1 2 2", "0", 1)
}

fn sheet_of(nodes: &str) -> Vec<u8> {
    to_bytes(&text_of(nodes)).unwrap()
}

fn run(bytes: &[u8], steps: &[[u64; 3]]) -> Outcome {
    run_on(bytes, 64, steps)
}

/// The fresh state settled: open sets of 1 and 2, rounds, verdict.
fn settled(nodes: &str) -> (u64, u64, u64, u64) {
    let out = run(&sheet_of(nodes), &[[5, 0, 0]]);
    let sets = &out.fleet.vans[0].sets;
    (sets[1], sets[2], out.rounds, verdict(&sheet_of(nodes), &out.fleet).1)
}

fn alive(nodes: &str) -> bool {
    verdict(&sheet_of(nodes), &Fleet::all_open(4, 1)) == (0, 1)
}

fn last_starts(nodes: &str, path: &[usize]) -> Vec<i64> {
    let mut state = State::all_open(4);
    state.put_path(path);
    Facts::of(&read(&sheet_of(nodes)).ok().unwrap(), 0, &state).l
}

/// 5 seconds at the dock from 0 on: over at 5.
#[test]
fn a_the_start_is_asked() {
    assert!(alive("0 5 5, 0 100 5, 0 100 5, 0 100 0"));
    let late = "0 4 5, 0 100 5, 0 100 5, 0 100 0";
    assert!(!alive(late));
    // No step helps.
    let placed = run(&sheet_of(late), &[[1, 0, 1]]);
    assert_eq!((placed.answer, verdict(&sheet_of(late), &placed.fleet)), (0, (0, 0)));
    assert!(!keeps_rules(&read(&sheet_of(late)).ok().unwrap(), 0, &[0, 3]));
}

/// There at 30, done at 35.
#[test]
fn a_the_end_is_asked_with_its_service() {
    assert!(alive("0 0 0, 0 100 5, 0 25 5, 0 35 5"));
    assert!(!alive("0 0 0, 0 100 5, 0 25 5, 0 34 5"));
    assert!(alive("0 0 0, 0 100 5, 0 25 5, 0 34 4"));
    let end = read(&sheet_of("0 0 0, 0 100 5, 0 25 5, 0 34 5")).ok().unwrap();
    assert!(!keeps_rules(&end, 0, &[0, 3]));
}

#[test]
fn a_no_sheet_is_refused_for_it() {
    let never = "0 0 1000000, 0 0 1000000, 7 7 1000000, 0 0 1";
    assert_eq!(open(&sheet_of(never)), (0, Fleet::all_open(4, 1)));
    assert_eq!(open(&sheet_of("0 0 0, 0 100 5, 26 25 5, 0 100 0")).0, 3);
}

/// The end's 3 less 10 is −7; 30 before that, −37. A ward's own 2 less 5 is −3, below what the end
/// leaves it (100 − 5 − 20); 10 before that, −13.
#[test]
fn b_last_starts_below_0() {
    assert_eq!(last_starts("0 0 0, 0 100 5, 0 25 5, 0 3 10", &[0, 3]), [-37, -7]);
    assert_eq!(last_starts("0 0 0, 0 2 5, 0 25 5, 0 100 0", &[0, 1, 3]), [-13, -3, 100]);
}

/// Ward 1's own 70 less 5 is 65, below what the end leaves it (100 − 5 − 20). With 10 to do at the end
/// until 104 that is 94; 94 − 5 − 20 is below ward 1's own 95; 10 before that, 59.
#[test]
fn b_a_stops_own_service_is_off_its_own_latest_too() {
    assert_eq!(last_starts("0 0 0, 0 70 5, 0 25 5, 0 100 0", &[0, 1, 3]), [0, 65, 100]);
    assert_eq!(last_starts("0 90 0, 0 100 5, 0 25 5, 0 104 10", &[0, 1, 3]), [59, 69, 94]);
}

/// Ward 2 is begun at 20 and done at 25.
#[test]
fn c_a_ward_is_struck_by_its_own_door() {
    assert_eq!(settled("0 0 0, 0 100 5, 0 25 5, 0 100 0"), (1, 1, 0, 1));
    assert_eq!(settled("0 0 0, 0 100 5, 0 24 5, 0 100 0"), (1, 0, 1, 1));
    // The start waits for earliest, as before: 50, done at 55.
    assert_eq!(settled("0 0 0, 50 55 5, 0 25 5, 0 100 0"), (1, 1, 0, 1));
    assert_eq!(settled("0 0 0, 50 54 5, 0 25 5, 0 100 0"), (0, 1, 1, 1));
}

/// By way of either ward the van is at the end at 35 (10 + 5 + 20, 20 + 5 + 10) and done at 40; the
/// straight way gets there at 30.
#[test]
fn c_a_place_is_struck_by_the_door_behind_it() {
    assert_eq!(settled("0 0 0, 0 100 5, 0 25 5, 0 40 5"), (1, 1, 0, 1));
    assert_eq!(settled("0 0 0, 0 100 5, 0 25 5, 0 39 5"), (0, 0, 1, 1));
}

/// Dead by the start, yet the wards are begun at 15 and 25 in good time.
#[test]
fn d_a_sheet_dead_by_its_start_keeps_open_places() {
    assert_eq!(settled("0 4 5, 0 100 5, 0 100 5, 0 100 0"), (1, 1, 0, 0));
}

/// Ward 2 on the route, ward 1 open in both legs and shut at 4, which is no time for 5 seconds.
#[test]
fn e_a_ward_that_nobody_can_serve_is_struck_everywhere() {
    let bytes = sheet_of("0 0 0, 0 4 5, 0 25 5, 0 100 0");
    let placed = run(&bytes, &[[1, 0, 2]]);
    assert_eq!(placed.fleet.vans[0].sets[1], 0b101);
    let out = run(&bytes, &[[1, 0, 2], [5, 0, 0]]);
    assert_eq!((out.rounds, out.fleet.open_places(), verdict(&bytes, &out.fleet)), (1, 0, (0, 1)));
}

/// All ways take 0 seconds: ward 1 is begun at 0, and its last moment, −1, is missed all the same.
#[test]
fn e_a_negative_last_moment_is_missed_even_at_0() {
    let ways = "16, 0 10 20 30 10 0 10 20 20 10 0 10 30 20 10 0";
    let text = text_of("0 0 0, 0 4 5, 0 25 5, 0 100 0");
    let still = format!("16,{}", " 0".repeat(16));
    let bytes = to_bytes(&text.replacen(ways, &still, 1)).unwrap();
    let out = run(&bytes, &[[5, 0, 0]]);
    assert_eq!((out.fleet.vans[0].sets[1], out.fleet.vans[0].sets[2], out.rounds), (0, 1, 1));
    let placed = run(&bytes, &[[1, 0, 1]]);
    assert_eq!(verdict(&bytes, &placed.fleet), (0, 0));
}
