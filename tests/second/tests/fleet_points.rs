//! Readings of the request for a fleet (02, No. 1) that are easy to get wrong, 1-a to 1-t, each
//! worked by hand on 01's sheet with two vans: wards 1 and 2, a transfer of 2 from 1 to 2. The door
//! of ward 2 is shut at 30, not at 25, so that 25 is the last moment there and 0 1 2 3 can be driven.

mod limits;
mod runs;

use limits::of_class_1;
use runs::run_on;
use second::choices::{all_keep_rules, choices};
use second::face::{open, open_places, verdict};
use second::fleet::Fleet;
use second::gen::draft::to_bytes as words_to_bytes;
use second::listing::listing;
use second::papers::SHEET;
use second::sheet::read;
use second::state::State;
use second::step::{step, Outcome};
use second::text::to_bytes;
use second::trail::{ample, room};

/// A step word.
const fn in_van(van: u64, kind: u64) -> u64 {
    256 * van + kind
}

fn text_of(vans: &str) -> String {
    SHEET.replacen("4 2 60 1 0", &of_class_1(vans), 1).replacen("0 25 5", "0 30 5", 1)
}

fn sheet_of(vans: &str) -> Vec<u8> {
    to_bytes(&text_of(vans)).unwrap()
}

fn two_vans() -> Vec<u8> {
    sheet_of("2 60, 2 60")
}

fn run(steps: &[[u64; 3]]) -> Outcome {
    run_on(&two_vans(), 80, steps)
}

fn alive(out: &Outcome) -> bool {
    verdict(&two_vans(), &out.fleet) == (0, 1)
}

fn records(out: &Outcome) -> [u64; 2] {
    [out.fleet.vans[0].records, out.fleet.vans[1].records]
}

#[test]
fn a_counts_of_limits() {
    for count in [0, 28, 31, 256, u32::MAX] {
        assert_eq!(open(&words_to_bytes(&[count, 1, 1])).0, 2, "{count}");
    }
    assert_eq!(open(&words_to_bytes(&[7, 1, 1, 1, 1001, 1, 1])).0, 1);
    for (vans, number) in [("2 60, 1001 60", 3), ("2 60, 2 1000001", 3), ("2 60, 2 60, 2 60", 0)] {
        assert_eq!(open(&sheet_of(vans)).0, number, "{vans}");
    }
    assert_eq!(open(&sheet_of(&["2 60"; 8].join(", "))).0, 0);
}

#[test]
fn b_eight_states_are_held_and_those_that_are_no_van_are_zero() {
    let (answer, fleet) = open(&two_vans());
    assert_eq!((answer, &fleet), (0, &Fleet::all_open(4, 2)));
    assert_eq!(fleet.vans[2], State::zero());
    assert_eq!(open_places(&two_vans(), &Fleet::all_open(4, 3)).0, 19);
    assert_eq!(open_places(&two_vans(), &Fleet::all_open(4, 1)).0, 19);
    let mut fleet = Fleet::all_open(4, 2);
    fleet.vans[7].records = 1;
    assert_eq!(verdict(&two_vans(), &fleet), (19, 0));
}

/// 11 words: parts of 5, room 2 each; words 4 and 9 are never used, word 10 is left over.
#[test]
fn b_the_trail_is_cut_into_equal_parts() {
    let out = step(&two_vans(), &Fleet::all_open(4, 2), &[9; 11], [in_van(1, 1), 0, 2]);
    assert_eq!((out.answer, out.trail), (0, vec![258, 1, 9, 9, 9, 514, 1, 9, 9, 9, 9]));
    assert_eq!((room(11, 2), room(7, 2), room(3, 2), room(1, 2)), (2, 1, 0, 0));
}

#[test]
fn c_marks_of_the_fleet_are_for_wards_only() {
    for x in [0, 3, 4, 63] {
        let mut fleet = Fleet::all_open(4, 2);
        fleet.must = 1 << x;
        assert_eq!(verdict(&two_vans(), &fleet), (19, 0), "{x}");
    }
    let mut placed = run(&[[1, 0, 2]]);
    placed.fleet.must = 0b100;
    assert!(alive(&placed));
}

#[test]
fn d_twenty_one_stands_between_11_and_12() {
    for (words, answer) in [
        ([in_van(2, 1), 9, 9], 21),
        ([in_van(2, 5), 0, 0], 21),
        ([in_van(1 << 24, 1), 0, 1], 21),
        ([in_van(1 << 55, 5), 0, 0], 21),
        ([in_van(2, 9), 0, 0], 11),
        ([in_van(1, 0), 0, 0], 11),
        ([in_van(200, 6), 0, 0], 0),
        ([in_van(1 << 55, 8), 1, 0], 0),
        ([in_van(200, 7), 0, 0], 18),
        ([in_van(1, 1), 3, 1], 12),
    ] {
        assert_eq!(run(&[words]).answer, answer, "{words:?}");
    }
}

#[test]
fn e_twenty_two_is_the_16_of_placing() {
    assert_eq!(run(&[[4, 1, 0], [in_van(1, 1), 0, 1]]).answer, 22);
    // Also where that van has no place open for the ward, and is dead by it.
    assert_eq!(run(&[[4, 1, 0], [2, 0, 1], [in_van(1, 1), 0, 1]]).answer, 22);
    // After 15, and before 17: van 0 has no room left.
    assert_eq!(run(&[[4, 1, 0], [in_van(1, 2), 0, 1], [in_van(1, 1), 0, 1]]).answer, 15);
    assert_eq!(run_on(&two_vans(), 4, &[[4, 1, 0], [in_van(1, 1), 0, 1]]).answer, 22);
    // Not for excluding or closing, and not in the van that owes it.
    assert_eq!(run(&[[4, 1, 0], [in_van(1, 3), 1, 0]]).answer, 0);
    assert_eq!(run(&[[4, 1, 0], [in_van(1, 2), 0, 1]]).answer, 0);
    assert_eq!(run(&[[4, 1, 0], [1, 0, 1]]).answer, 0);
}

#[test]
fn f_a_ward_on_another_vans_route() {
    let placed = [1, 0, 2];
    assert_eq!(run(&[placed, [in_van(1, 1), 0, 2]]).answer, 15);
    assert_eq!(run(&[placed, [in_van(1, 2), 0, 2]]).answer, 15);
    let excluded = run(&[placed, [in_van(1, 3), 2, 0]]);
    assert_eq!((excluded.answer, records(&excluded)), (0, [1, 1]));
    let required = run(&[placed, [in_van(1, 4), 2, 0]]);
    assert_eq!((required.answer, records(&required), alive(&required)), (0, [1, 2], false));
    assert_eq!(run(&[placed, [8, 2, 0]]).answer, 0);
    assert_eq!(run(&[placed, [1, 0, 2]]).answer, 13);
}

#[test]
fn g_the_mark_of_the_fleet_owes_nothing() {
    let out = run(&[[8, 1, 0], [3, 1, 0], [in_van(1, 3), 1, 0]]);
    assert_eq!((out.answer, alive(&out)), (0, false));
    assert!(alive(&run(&[[8, 1, 0], [3, 1, 0]])));
    assert_eq!(run(&[[8, 1, 0], [in_van(1, 1), 0, 1]]).answer, 0);
}

#[test]
fn h_two_vans_may_require_one_ward() {
    let out = run(&[[4, 1, 0], [in_van(1, 4), 1, 0]]);
    assert_eq!((out.answer, alive(&out)), (0, true));
    assert!(choices(&read(&two_vans()).ok().unwrap(), &out.fleet).is_empty());
}

/// The fleet fresh but for one record and one level, step back with this trail.
fn back_from(fleet: Fleet, trail: &[u64]) -> Outcome {
    let mut fleet = fleet;
    for van in 0..2 {
        fleet.vans[van].level_count = 1;
        fleet.vans[van].records = u64::from(trail[2 * van] != 0);
    }
    step(&two_vans(), &fleet, trail, [7, 0, 0])
}

#[test]
fn i_kind_4_is_the_first_vans() {
    let marked = run(&[[6, 0, 0], [in_van(1, 8), 2, 0]]);
    assert_eq!((marked.fleet.must, records(&marked), &marked.trail[..2]), (4, [1, 0], &[1026, 0][..]));
    assert_eq!(run(&[[6, 0, 0], [in_van(1, 8), 2, 0], [7, 0, 0]]).fleet, Fleet::all_open(4, 2));
    let mut fleet = Fleet::all_open(4, 2);
    assert_eq!(back_from(fleet.clone(), &[1026, 0, 0, 0]).answer, 20);
    fleet.must = 0b100;
    assert_eq!(back_from(fleet.clone(), &[1026, 0, 0, 0]).fleet.must, 0);
    assert_eq!(back_from(fleet.clone(), &[1026, 1, 0, 0]).answer, 20);
    assert_eq!(back_from(fleet.clone(), &[1025, 0, 0, 0]).answer, 20);
    assert_eq!(back_from(fleet, &[0, 0, 1026, 0]).answer, 20);
    // On a route too: placed, then marked, then back to before the mark.
    let placed = run(&[[1, 0, 2], [6, 0, 0], [8, 2, 0], [7, 0, 0]]);
    assert_eq!((placed.answer, placed.fleet.must, placed.fleet.vans[0].path()), (0, 0, vec![0, 2, 3]));
}

#[test]
fn j_the_rule_between_vans_is_asked_once_of_the_whole() {
    for van in 0..2 {
        let out = run(&[[6, 0, 0], [in_van(van, 1), 0, 2], [7, 0, 0]]);
        assert_eq!((out.answer, out.fleet), (0, Fleet::all_open(4, 2)));
    }
    // Van 1's record alone fits its van, but opens a ward that stays on van 0's route.
    let mut fleet = run(&[[1, 0, 2]]).fleet;
    fleet.vans[0].records = 0;
    let out = back_from(fleet.clone(), &[0, 0, 258, 1]);
    assert_eq!((out.answer, out.fleet.vans[1].sets[2], out.fleet.vans[1].level_count), (20, 0, 1));
}

#[test]
fn k_whose_trail_needs_room() {
    let full = |van: usize| {
        let mut fleet = Fleet::all_open(4, 2);
        fleet.vans[van].records = 1;
        fleet
    };
    let answer = |fleet: &Fleet, words| step(&two_vans(), fleet, &[0; 4], words).answer;
    for van in 0..2 {
        assert_eq!(answer(&full(van), [1, 0, 2]), 17);
        assert_eq!(answer(&full(van), [in_van(1 - van as u64, 4), 1, 0]), 0);
        assert_eq!(answer(&full(van), [in_van(van as u64, 3), 1, 0]), 17);
        assert_eq!(answer(&full(van), [6, 0, 0]), 0);
        assert_eq!(answer(&full(van), [in_van(1, 8), 1, 0]), if van == 0 { 17 } else { 0 });
    }
    let mut closed = full(1);
    closed.vans[1].sets[2] = 0;
    assert_eq!(answer(&closed, [1, 0, 2]), 0);
    // Above the room is 19, of any van and in any step.
    closed.vans[1].records = 2;
    assert_eq!(answer(&closed, [6, 0, 0]), 19);
}

#[test]
fn l_the_listing_shows_sums_and_a_route_a_van() {
    let steps = "6, 8 1 0, 257 0 2, 261 0 0, 1 0 1, 5 0 0, 257 0 1";
    let text = text_of("2 60, 2 60");
    let (day, _) = text.rsplit_once('|').unwrap();
    let listed = "\
        step 1 answer 0 open 4 records 1 rounds 0 alive 1\n\
        step 2 answer 0 open 3 records 3 rounds 0 alive 1\n\
        step 3 answer 0 open 2 records 4 rounds 1 alive 1\n\
        step 4 answer 22 open 2 records 4 rounds 0 alive 1\n\
        step 5 answer 0 open 1 records 5 rounds 1 alive 1\n\
        step 6 answer 0 open 0 records 6 rounds 0 alive 1\n\
        route 0 3\nroute 0 1 2 3\n";
    assert_eq!(listing(&to_bytes(&format!("{day} | {steps}")).unwrap()), listed);
}

#[test]
fn m_open_places_and_verdict_are_the_fleets() {
    assert_eq!(open_places(&two_vans(), &Fleet::all_open(4, 2)), (0, 4));
    assert_eq!(verdict(&two_vans(), &Fleet::all_open(4, 2)), (0, 1));
}

/// With capacity 1 in van 1 its places fall and those of van 0 stay.
#[test]
fn n_settling_is_of_the_van_named() {
    let bytes = sheet_of("2 60, 1 60");
    let out = run_on(&bytes, 80, &[[5, 0, 0]]);
    assert_eq!((out.rounds, out.fleet.open_places()), (0, 4));
    let out = run_on(&bytes, 80, &[[in_van(1, 5), 0, 0]]);
    assert_eq!((out.rounds, out.fleet.vans[0].open_places(), out.fleet.vans[1].open_places()), (1, 2, 0));
}

#[test]
fn o_each_van_notes_its_own_record_count() {
    let mut out = run(&[[4, 1, 0], [in_van(1, 6), 0, 0]]);
    assert_eq!((out.fleet.vans[0].levels[0], out.fleet.vans[1].levels[0]), (1, 0));
    assert_eq!((out.fleet.vans[0].level_count, out.fleet.vans[1].level_count), (1, 1));
    assert_eq!(out.fleet.vans[2], State::zero());
    out.fleet.vans[1].level_count = 0;
    assert_eq!(step(&two_vans(), &out.fleet, &out.trail, [7, 0, 0]).answer, 19);
    let mut levels = vec![[6, 0, 0]; 64];
    assert_eq!(run(&levels).answer, 0);
    levels.push([in_van(1, 6), 0, 0]);
    assert_eq!(run(&levels).answer, 18);
}

#[test]
fn p_step_8() {
    for (x, answer) in [(0, 12), (3, 12), (257, 12), (1, 0), (2, 0)] {
        assert_eq!(run(&[[8, x, u64::MAX]]).answer, answer, "{x}");
    }
    let twice = run_on(&two_vans(), 4, &[[8, 1, 0], [8, 1, 0]]);
    assert_eq!((twice.answer, records(&twice)), (0, [1, 0]));
    assert_eq!(run_on(&two_vans(), 4, &[[8, 1, 0], [8, 2, 0]]).answer, 17);
    let nobody = run(&[[3, 1, 0], [in_van(1, 3), 1, 0], [8, 1, 0]]);
    assert_eq!((nobody.answer, alive(&nobody)), (0, false));
}

/// The end route 0 2 3 of van 0 put into the fresh fleet: 1 is open in both its legs, and in van
/// 1, from which 2 counts as excluded, in leg 0. Settled: in van 0 the place behind 2 falls, in
/// van 1 the only one, its partner having none.
#[test]
fn q_runs_that_end_alike_settle_as_worked_out() {
    let settled = [[5, 0, 0], [in_van(1, 5), 0, 0]];
    let place = [1, 0, 2];
    for steps in [
        [place, [8, 1, 0], settled[0], settled[1]].to_vec(),
        [settled[1], settled[0], [8, 1, 0], place, settled[1], settled[0]].to_vec(),
        [place, [in_van(1, 3), 2, 0], [8, 1, 0], settled[1], settled[0]].to_vec(),
    ] {
        let out = run(&steps);
        let sets = |van: usize| [out.fleet.vans[van].sets[1], out.fleet.vans[van].sets[2]];
        assert_eq!((sets(0), sets(1), out.fleet.must, alive(&out)), ([1, 0], [0, 0], 2, true), "{steps:?}");
    }
}

/// Five rounds a van; 11 pairs share no ward, and of these 3 keep the rules.
#[test]
fn r_a_choice_is_one_round_for_each_van() {
    let sheet = read(&two_vans()).ok().unwrap();
    let all = choices(&sheet, &Fleet::all_open(4, 2));
    assert_eq!(all.len(), 11);
    assert!(all.contains(&vec![vec![0, 3], vec![0, 3]]));
    let kept: Vec<_> = all.into_iter().filter(|choice| all_keep_rules(&sheet, choice)).collect();
    let (idle, both) = (vec![0, 3], vec![0, 1, 2, 3]);
    assert_eq!(kept, [vec![idle.clone(); 2], vec![idle.clone(), both.clone()], vec![both, idle]]);
}

#[test]
fn s_each_part_holds_the_first_vans_bound() {
    assert_eq!(room(ample(64, 8), 8), 4_030);
    assert_eq!(room(ample(64, 1), 1), 64 * 62 + 62);
    assert_eq!(ample(64, 8), 64_480);
}

#[test]
fn t_an_idle_van_can_make_the_fleet_dead() {
    let bytes = sheet_of("2 60, 2 29");
    assert_eq!(verdict(&bytes, &Fleet::all_open(4, 2)), (0, 0));
    assert!(listing(&bytes).starts_with("step 1 answer 0 open 4 records 0 rounds 0 alive 0\n"));
}

#[test]
fn t_the_other_end_of_a_transfer_stays_open_elsewhere_until_settled() {
    let out = run(&[[1, 0, 2]]);
    assert_eq!(out.fleet.vans[1].sets[1], 1);
    assert_eq!(run(&[[1, 0, 2], [in_van(1, 1), 0, 1]]).answer, 22);
    assert_eq!(run(&[[1, 0, 2], [in_van(1, 5), 0, 0]]).fleet.vans[1].sets[1], 0);
}
