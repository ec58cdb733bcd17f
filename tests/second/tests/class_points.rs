//! Readings of van classes (02, No. 7) that are easy to get wrong, each worked by hand on 01's sheet:
//! wards 1 and 2, a transfer of 2 from 1 to 2. The door of ward 2 is shut at 30, not at 25, so that
//! 0 1 2 3 can be driven.

mod runs;

use runs::run_on;
use second::choices::choices;
use second::face::{open, open_places, verdict};
use second::fleet::Fleet;
use second::gen::draft::to_bytes as words_to_bytes;
use second::gen::full;
use second::listing::listing;
use second::papers::SHEET;
use second::rng::Rng;
use second::rounds::keeps_rules;
use second::sheet::{read, stretch, PROGRAM_BYTES};
use second::step::{step, Outcome};
use second::text::to_bytes;

const NODES: &str = "0 0 0 1, 0 100 5 1, 0 25 5 1, 0 100 0 1";
const TOO_HEAVY: &str = "1, 1 1 0 3";
const DOUBLED: &str = "2, 1 1 0 1, 1 1 0 1";

/// A van of each of these classes, and these sets at the four nodes.
fn text_of(bits: &[u32], sets: [u32; 4]) -> String {
    let vans: String = bits.iter().map(|bit| format!("2 60 {bit} ")).collect();
    let [start, one, two, end] = sets;
    let nodes = format!("0 0 0 {start}, 0 100 5 {one}, 0 30 5 {two}, 0 100 0 {end}");
    SHEET.replacen("4 2 60 1 0", &format!("{} {vans}0", 3 * bits.len() + 1), 1).replacen(NODES, &nodes, 1)
}

fn sheet_of(bits: &[u32], sets: [u32; 4]) -> Vec<u8> {
    to_bytes(&text_of(bits, sets)).unwrap()
}

fn opened(bits: &[u32], sets: [u32; 4]) -> u64 {
    open(&sheet_of(bits, sets)).0
}

/// The same sheet with other text in one place.
fn altered(bits: &[u32], sets: [u32; 4], old: &str, new: &str) -> Vec<u8> {
    let text = text_of(bits, sets);
    assert!(text.contains(old), "{old}");
    to_bytes(&text.replacen(old, new, 1)).unwrap()
}

/// Van 0 is of class 1, van 1 of class 2. Ward 1 admits van 0 alone, ward 2 both.
fn two_vans() -> Vec<u8> {
    sheet_of(&[1, 2], [3, 1, 3, 3])
}

fn run(bytes: &[u8], steps: &[[u64; 3]]) -> Outcome {
    run_on(bytes, 80, steps)
}

/// Places of wards 1 and 2 in leg 0, van by van.
fn open_in(fleet: &Fleet, vans: usize) -> Vec<[u64; 2]> {
    fleet.vans[..vans].iter().map(|state| [state.sets[1], state.sets[2]]).collect()
}

#[test]
fn a_set_is_1_to_255() {
    for (set, number) in [(1, 0), (255, 0), (254, 7), (0, 3), (256, 3), (257, 3), (u32::MAX, 3)] {
        assert_eq!(opened(&[1], [set, 1, 1, 1]), number, "{set}");
        assert_eq!(opened(&[1], [1, 1, 1, set]), number, "{set}");
        let of_ward = if number == 7 { 0 } else { number };
        assert_eq!(opened(&[1], [1, set, 1, 1]), of_ward, "{set}");
    }
}

#[test]
fn a_bit_is_one_of_eight_and_may_be_shared() {
    for bit in [1, 2, 4, 8, 16, 32, 64, 128] {
        assert_eq!(opened(&[bit], [255; 4]), 0, "{bit}");
        assert_eq!(opened(&[bit, 1, bit], [255; 4]), 0, "{bit}");
    }
    for bit in [0, 3, 5, 127, 129, 192, 255, 256, 257, 1 << 31, u32::MAX] {
        assert_eq!(opened(&[bit], [255; 4]), 3, "{bit}");
        assert_eq!(opened(&[1, 2, bit], [255; 4]), 3, "{bit}");
    }
}

#[test]
fn the_count_is_of_words_three_a_van_and_one() {
    for count in [0, 1, 2, 3, 5, 6, 8, 9, 15, 17, 23, 24, 26, 27, 28, 31, u32::MAX] {
        assert_eq!(open(&words_to_bytes(&[count, 1, 1, 1, 0])).0, 2, "{count}");
    }
    for vans in 1..=8 {
        assert_eq!(opened(&vec![1; vans], [1; 4]), 0, "{vans}");
    }
}

/// Count, then shortness, then values.
#[test]
fn the_order_within_limits_and_nodes() {
    let answer = |words: &[u32]| open(&words_to_bytes(words)).0;
    for (words, number) in [
        (&[3][..], 2),
        (&[26], 2),
        (&[4], 1),
        (&[4, 1, 1, 3], 1),
        (&[7, 1, 1, 3, 1, 1, 1], 1),
        (&[4, 1, 1, 3, 0], 3),
        (&[4, 1, 1, 3, 0, 65], 3),
        (&[4, 1, 1, 1, 0, 65], 2),
        (&[4, 1, 1, 1, 0, 2, 0, 0, 0, 0, 0, 0, 0], 1),
        (&[4, 1, 1, 1, 0, 2, 0, 0, 0, 0, 0, 0, 0, 1, 156], 3),
        (&[4, 1, 1, 1, 0, 2, 0, 0, 0, 1, 0, 0, 0, 1, 156], 2),
    ] {
        assert_eq!(answer(words), number, "{words:?}");
    }
}

/// 01's text as it was has two words a van.
#[test]
fn the_old_layout_is_refused() {
    let old = SHEET.replacen("4 2 60 1 0", "2 2 60", 1).replacen(NODES, "0 0 0, 0 100 5, 0 25 5, 0 100 0", 1);
    assert_eq!(open(&to_bytes(&old).unwrap()).0, 2);
}

#[test]
fn seven_is_for_the_start_and_the_end_and_any_van() {
    for (bits, sets, number) in [
        (&[1][..], [2, 1, 1, 1], 7),
        (&[1], [1, 1, 1, 2], 7),
        (&[1], [254, 1, 1, 254], 7),
        (&[1], [1, 2, 4, 1], 0),
        (&[1, 2], [3, 1, 1, 3], 0),
        (&[1, 2], [1, 3, 3, 3], 7),
        (&[1, 2], [3, 3, 3, 2], 7),
        (&[1, 2, 4], [7, 1, 1, 5], 7),
        (&[1, 4, 1], [5, 1, 1, 5], 0),
        (&[1, 2, 4, 8, 16, 32, 64, 128], [255, 1, 1, 255], 0),
        (&[1, 2, 4, 8, 16, 32, 64, 128], [255, 1, 1, 127], 7),
    ] {
        assert_eq!(opened(bits, sets), number, "{bits:?} {sets:?}");
    }
    let two_nodes =
        |end: u32| format!("4 0 0 1 0 | 2, 0 0 0 1, 0 9 0 {end} | 0 | 4, 0 1 1 0 | 4, 0 0 0 0 | 0");
    for (end, number) in [(1, 0), (2, 7)] {
        assert_eq!(open(&to_bytes(&two_nodes(end)).unwrap()).0, number);
    }
}

/// 31 from 3 to 0 is more than by way of 1, 20 and 10.
const WAY: [&str; 2] = ["10 30 20 10 0", "10 31 20 10 0"];
const JOB: &str = "1, 3 1 2 2";

#[test]
fn seven_comes_after_six_and_before_five() {
    let shut = [2, 1, 1, 1];
    let answer = |sets, old, new| open(&altered(&[1], sets, old, new)).0;
    assert_eq!((answer([1; 4], JOB, DOUBLED), answer(shut, JOB, DOUBLED)), (4, 4));
    assert_eq!((answer([1; 4], JOB, TOO_HEAVY), answer(shut, JOB, TOO_HEAVY)), (6, 6));
    assert_eq!((answer([1; 4], WAY[0], WAY[1]), answer(shut, WAY[0], WAY[1])), (5, 7));
    assert_eq!(answer(shut, "7 0 0", "7 0 0 0"), 1);
    assert_eq!(answer(shut, "| 8, 5 0 0", "| 2001, 5 0 0"), 2);
    assert_eq!(answer(shut, "16, 0 10", "16, 1000001 10"), 3);
}

/// The largest capacity of all vans, whatever the classes: van 1 could carry 3, and no ward admits it.
#[test]
fn six_does_not_read_classes() {
    let text = text_of(&[1, 2], [3, 1, 1, 3]).replacen("2 60 2", "3 60 2", 1).replacen(JOB, TOO_HEAVY, 1);
    assert_eq!(open(&to_bytes(&text).unwrap()).0, 0);
}

#[test]
fn all_that_checks_six_checks_seven() {
    let (well, shut) = (sheet_of(&[1], [1; 4]), sheet_of(&[1], [1, 1, 1, 2]));
    assert_eq!(open(&shut), (7, Fleet::zero()));
    assert_eq!(listing(&shut), "refused 7\n");
    let (fleet, trail) = (open(&well).1, [5; 8]);
    assert_eq!((open_places(&well, &fleet), verdict(&well, &fleet)), ((0, 2), (0, 1)));
    assert_eq!((open_places(&shut, &fleet), verdict(&shut, &fleet)), ((7, 0), (7, 0)));
    for kind in 1..=9 {
        let out = step(&shut, &fleet, &trail, [kind, 1, 0]);
        assert_eq!((out.answer, out.rounds, &out.fleet, &out.trail[..]), (7, 0, &fleet, &trail[..]));
    }
    for number in 1..=6 {
        assert!(!stretch(&well, number).is_empty(), "{number}");
        assert!(stretch(&shut, number).is_empty(), "{number}");
    }
    assert_eq!(stretch(&well, 1), &well[4..20]);
    assert_eq!(stretch(&well, 2), &well[24..88]);
}

#[test]
fn seven_wins_over_nineteen() {
    let shut = sheet_of(&[1], [2, 1, 1, 1]);
    for fleet in [Fleet::zero(), Fleet::all_open(4, 2), Fleet::all_open(5, 1)] {
        let out = step(&shut, &fleet, &[7; 9], [5, 0, 0]);
        assert_eq!((out.answer, &out.fleet, out.trail), (7, &fleet, vec![7; 9]));
        assert_eq!((open_places(&shut, &fleet), verdict(&shut, &fleet)), ((7, 0), (7, 0)));
    }
}

#[test]
fn fresh_a_ward_is_open_where_it_admits_the_van() {
    for (bits, sets, places) in [
        (&[1, 2][..], [3, 1, 3, 3], &[[1, 1], [0, 1]][..]),
        (&[1, 2], [3, 2, 1, 3], &[[0, 1], [1, 0]]),
        // The bit decides, not the number of the van.
        (&[2, 1], [3, 2, 1, 3], &[[1, 0], [0, 1]]),
        // Ward 1 admits nobody, van 1 is admitted nowhere, vans 0 and 2 share a class.
        (&[8, 1, 8], [9, 6, 8, 9], &[[0, 1], [0, 0], [0, 1]]),
        (&[128], [255, 128, 127, 128], &[[1, 0]]),
    ] {
        let (answer, fleet) = open(&sheet_of(bits, sets));
        assert_eq!((answer, open_in(&fleet, bits.len())), (0, places.to_vec()), "{bits:?} {sets:?}");
        assert_eq!(open_places(&sheet_of(bits, sets), &fleet).1, fleet.open_places());
        assert_eq!(verdict(&sheet_of(bits, sets), &fleet), (0, 1));
    }
}

/// Van 0 has five rounds, van 1 the straight one and 0 2 3. Beside the straight one any of the five
/// will do, beside 0 2 3 the two without ward 2.
#[test]
fn fresh_choices_read_the_classes() {
    let all = choices(&read(&two_vans()).ok().unwrap(), &open(&two_vans()).1);
    assert_eq!(all.len(), 7);
    assert!(all.iter().all(|choice| !choice[1].contains(&1)));
}

#[test]
fn placing_and_closing_a_ward_that_does_not_admit_the_van() {
    for kind in [257, 258] {
        assert_eq!(run(&two_vans(), &[[kind, 0, 1]]).answer, 15);
        assert_eq!(run(&two_vans(), &[[kind, 2, 1]]).answer, 14);
        // Also in the leg that ward 2 leaves: nothing is inherited.
        assert_eq!(run(&two_vans(), &[[257, 0, 2], [kind, 2, 1]]).answer, 15);
    }
    assert_eq!(run(&two_vans(), &[[1, 0, 1]]).answer, 0);
}

#[test]
fn requiring_it_is_accepted_and_dead() {
    let out = run(&two_vans(), &[[260, 1, 0]]);
    assert_eq!((out.answer, out.fleet.vans[1].records, verdict(&two_vans(), &out.fleet)), (0, 1, (0, 0)));
    let back = run(&two_vans(), &[[6, 0, 0], [260, 1, 0], [7, 0, 0]]);
    assert_eq!((back.answer, verdict(&two_vans(), &back.fleet)), (0, (0, 1)));
    // Then van 1 owes it, though it may not come there.
    assert_eq!(run(&two_vans(), &[[260, 1, 0], [259, 1, 0]]).answer, 16);
    assert_eq!(run(&two_vans(), &[[260, 1, 0], [1, 0, 1]]).answer, 22);
}

/// No record, so no room is needed either.
#[test]
fn excluding_it_is_accepted_and_changes_nothing() {
    let fresh = open(&two_vans()).1;
    let out = step(&two_vans(), &fresh, &[], [259, 1, 0]);
    assert_eq!((out.answer, out.fleet), (0, fresh));
}

#[test]
fn a_ward_that_admits_nobody_must_go_somewhere() {
    let nobodys = sheet_of(&[1, 2], [3, 4, 3, 3]);
    let out = run(&nobodys, &[[8, 1, 0]]);
    assert_eq!((out.answer, out.fleet.vans[0].records, verdict(&nobodys, &out.fleet)), (0, 1, (0, 0)));
    // One van is enough, as long as it has the ward open.
    let out = run(&two_vans(), &[[8, 1, 0]]);
    assert_eq!((out.answer, verdict(&two_vans(), &out.fleet)), (0, (0, 1)));
    let out = run(&two_vans(), &[[8, 1, 0], [3, 1, 0]]);
    assert_eq!((out.answer, verdict(&two_vans(), &out.fleet)), (0, (0, 0)));
}

/// Van 1 never had ward 1 open: only the van that takes it has a record.
#[test]
fn placing_writes_nothing_where_the_ward_was_never_open() {
    let out = run(&two_vans(), &[[1, 0, 1]]);
    assert_eq!((out.fleet.vans[0].records, out.fleet.vans[1].records), (1, 0));
    let out = run(&two_vans(), &[[1, 0, 2]]);
    assert_eq!((out.fleet.vans[0].records, out.fleet.vans[1].records), (1, 1));
}

/// In van 1 ward 2 is open and its partner is not: it has no support.
#[test]
fn settling_meets_the_partner_that_is_closed() {
    let out = run(&two_vans(), &[[261, 0, 0]]);
    assert_eq!((out.rounds, open_in(&out.fleet, 2)), (1, vec![[1, 1], [0, 0]]));
    assert_eq!((out.fleet.vans[1].records, &out.trail[40..42]), (1, &[258, 1][..]));
}

/// Form, steps, settling and verdict do not read classes: a fleet handed in may have ward 1 in van 1.
#[test]
fn a_fleet_that_no_steps_lead_to() {
    let (bytes, handed) = (two_vans(), Fleet::all_open(4, 2));
    assert_eq!((open_places(&bytes, &handed), verdict(&bytes, &handed)), ((0, 4), (0, 1)));
    let settled = step(&bytes, &handed, &[0; 40], [261, 0, 0]);
    assert_eq!((settled.answer, settled.rounds, settled.fleet == handed), (0, 0, true));
    let placed = step(&bytes, &handed, &[0; 40], [257, 0, 1]);
    assert_eq!((placed.answer, placed.fleet.vans[1].path()), (0, vec![0, 1, 3]));
    assert_eq!(verdict(&bytes, &placed.fleet), (0, 1));
    assert_eq!(step(&bytes, &handed, &[0; 40], [258, 0, 1]).fleet.vans[1].sets[1], 0);
    assert!(keeps_rules(&read(&bytes).ok().unwrap(), 1, &[0, 1, 2, 3]));
}

/// A record that never was: it fits, and opens ward 1 in van 1.
#[test]
fn stepping_back_does_not_read_classes() {
    let mut fleet = open(&two_vans()).1;
    for state in fleet.vans[..2].iter_mut() {
        state.level_count = 1;
    }
    fleet.vans[1].records = 1;
    let out = step(&two_vans(), &fleet, &[0, 0, 257, 1], [7, 0, 0]);
    assert_eq!((out.answer, out.fleet), (0, Fleet::all_open(4, 2)));
}

/// 8 vans, 64 nodes, 155 jobs, 2,000 steps: the fullest sheet is read, and nothing longer.
#[test]
fn the_programs_bound_is_the_fullest_sheet() {
    let mut day = full::day(&mut Rng::of(1, 64), 64, 8);
    day.steps = vec![[6, 0, 0]; 2000];
    let mut bytes = day.bytes();
    assert_eq!((bytes.len(), PROGRAM_BYTES, open(&bytes).0), (60_396, 60_396, 0));
    let lines = listing(&bytes);
    assert!(lines.starts_with("step 1 answer 0 open 496 records 0 rounds 0 alive 1\n"), "{lines}");
    assert_eq!(lines.lines().count(), 2_008);
    bytes.extend([0; 4]);
    assert_eq!(listing(&bytes), "refused 1\n");
    // One word more, and the library's own answer would be another.
    let mut words = vec![3; 15_100];
    assert_eq!(open(&words_to_bytes(&words)).0, 2);
    assert_eq!(listing(&words_to_bytes(&words)), "refused 1\n");
    words.pop();
    assert_eq!(listing(&words_to_bytes(&words)), "refused 2\n");
}
