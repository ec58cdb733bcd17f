//! Readings of clean before soiled (02, No. 11) that are easy to get wrong, each worked by hand on a day of six
//! nodes, 0 and 5 the dock. Every way takes 1 second and 1 metre, doors and limits are wide, so that the profile
//! alone decides.

mod runs;

use runs::run_on;
use second::choices::{all_keep_rules, choices};
use second::face::{open, verdict};
use second::fleet::Fleet;
use second::gen::draft::to_bytes as words_to_bytes;
use second::gen::full;
use second::listing::listing;
use second::papers::{bytes_with, LISTING, SHEET};
use second::rng::Rng;
use second::rounds::keeps_rules;
use second::sheet::{read, stretch, PROGRAM_BYTES};
use second::state::State;
use second::step::{step, Outcome};
use second::text::to_bytes;

/// Ward 1 clean, ward 2 soiled, ward 3 both; ward 4 nothing.
const JOBS: &str = "4, 1 1 0 1, 2 2 0 1, 1 3 0 1, 2 3 0 1";
const ENDS: usize = 5;

/// Vans that take 9 and may drive 99, these jobs, and the profile's number behind them all.
fn text_of(vans: usize, profile: u32, jobs: &str) -> String {
    let limits = "9 99 1 ".repeat(vans);
    let nodes = ["0 999 0 1"; 6].join(", ");
    let row = |i: usize| (0..6).map(|k| u32::from(i != k).to_string()).collect::<Vec<_>>().join(" ");
    let table = (0..6).map(row).collect::<Vec<_>>().join(" ");
    format!("{} {limits}{profile} | 6, {nodes} | {jobs} | 36, {table} | 36, {table} | 0", 3 * vans + 1)
}

fn sheet_of(vans: usize, profile: u32, jobs: &str) -> Vec<u8> {
    to_bytes(&text_of(vans, profile, jobs)).unwrap()
}

/// One van with the profile and the usual jobs.
fn day() -> Vec<u8> {
    sheet_of(1, 1, JOBS)
}

/// A van's state on this route, every other ward open in every leg.
fn on(wards: &[usize]) -> State {
    let path = [&[0], wards, &[ENDS]].concat();
    let legs = path[..path.len() - 1].iter().fold(0, |set, &stop| set | 1 << stop);
    let mut state = State::zero();
    state.put_path(&path);
    for x in (1..ENDS).filter(|x| !wards.contains(x)) {
        state.sets[x] = legs;
    }
    state
}

/// The legs of ward x that are left once a lone van on this route is settled, and the striking rounds.
fn left(bytes: &[u8], wards: &[usize], x: usize) -> (Vec<usize>, u64) {
    let out = step(bytes, &Fleet::lone(on(wards)), &[0; 64], [5, 0, 0]);
    assert_eq!(out.answer, 0);
    let state = &out.fleet.vans[0];
    (state.path().into_iter().filter(|&leg| state.is_open(x, leg)).collect(), out.rounds)
}

/// Is a lone van on this route alive? The brute rule of a round must say the same of it.
fn alive(bytes: &[u8], wards: &[usize]) -> bool {
    let (answer, alive) = verdict(bytes, &Fleet::lone(on(wards)));
    let round = [&[0], wards, &[ENDS]].concat();
    assert_eq!((answer, alive == 1), (0, keeps_rules(&read(bytes).ok().unwrap(), 0, &round)), "{wards:?}");
    alive == 1
}

fn opened(vans: usize, profile: u32) -> u64 {
    open(&sheet_of(vans, profile, JOBS)).0
}

fn run(bytes: &[u8], steps: &[[u64; 3]]) -> Outcome {
    run_on(bytes, 200, steps)
}

#[test]
fn the_number_is_0_or_1() {
    for (number, answer) in [(0, 0), (1, 0), (2, 3), (3, 3), (255, 3), (256, 3), (257, 3), (u32::MAX, 3)] {
        for vans in [1, 2, 8] {
            assert_eq!(opened(vans, number), answer, "{number} behind {vans} vans");
        }
    }
}

/// One for the whole sheet and not one a van: 4, 7, .. 25 words.
#[test]
fn the_count_is_three_a_van_and_one() {
    for vans in 1..=8 {
        assert_eq!(opened(vans, 1), 0, "{vans}");
        let text = text_of(vans, 1, JOBS);
        let counted =
            |more: usize| text.replacen(&(3 * vans + 1).to_string(), &(3 * vans + more).to_string(), 1);
        // The layout of before, that count and the number all the same, and a number too many.
        let old = counted(0).replacen("1 1 | 6", "1 | 6", 1);
        let more = counted(2).replacen("1 | 6", "1 1 | 6", 1);
        for text in [old, counted(0), more] {
            assert_eq!(open(&to_bytes(&text).unwrap()).0, 2, "{text}");
        }
    }
    let a_van = text_of(2, 1, JOBS).replacen("7 9 99 1 9 99 1 1", "8 9 99 1 1 9 99 1 1", 1);
    assert_eq!(open(&to_bytes(&a_van).unwrap()).0, 2);
    for count in [0, 1, 2, 3, 5, 6, 24, 26, 27, 28, u32::MAX] {
        assert_eq!(open(&words_to_bytes(&[count, 1, 1, 1, 1])).0, 2, "{count}");
    }
}

/// Count, then shortness, then values: the number is one of the values, and all of them give 3.
#[test]
fn the_order_within_the_limits() {
    for (words, number) in [
        (&[3, 9, 9, 1][..], 2),
        (&[4, 9, 9, 1], 1),
        (&[4, 9, 9, 1, 2], 3),
        (&[4, 9, 9, 1, 2, 65], 3),
        (&[4, 9, 9, 1, 1, 65], 2),
        (&[4, 9, 9, 1, 1], 1),
        (&[4, 1001, 9, 1, 2], 3),
        (&[7, 9, 9, 1, 9, 9, 1], 1),
        (&[7, 9, 9, 1, 9, 9, 1, 2], 3),
    ] {
        assert_eq!(open(&words_to_bytes(words)).0, number, "{words:?}");
    }
    // The section that hands back the limits has the number in it.
    let bytes = day();
    assert_eq!(stretch(&bytes, 1), &bytes[4..20]);
    assert_eq!(stretch(&bytes, 1)[12..], [1, 0, 0, 0]);
    assert!(stretch(&sheet_of(1, 2, JOBS), 1).is_empty());
}

/// A bad number is met before a bad table, a job twice, a load too heavy and a dock that shuts a van out.
#[test]
fn three_comes_before_all_that_follows() {
    for jobs in ["2, 1 1 0 1, 1 1 0 1", "1, 1 1 0 10"] {
        assert_eq!(open(&sheet_of(1, 2, jobs)).0, 3, "{jobs}");
        assert!([4, 6].contains(&open(&sheet_of(1, 1, jobs)).0), "{jobs}");
    }
    let shut = |profile| text_of(1, profile, JOBS).replacen("6, 0 999 0 1", "6, 0 999 0 2", 1);
    assert_eq!((open(&to_bytes(&shut(2)).unwrap()).0, open(&to_bytes(&shut(1)).unwrap()).0), (3, 7));
}

/// All that checks 1 to 4: a step, a question, a section.
#[test]
fn whoever_reads_the_sheet_meets_three() {
    let (bad, fleet) = (sheet_of(1, 2, JOBS), Fleet::lone(on(&[])));
    let out = step(&bad, &fleet, &[5; 8], [5, 0, 0]);
    assert_eq!((out.answer, out.rounds, out.fleet == fleet, out.trail), (3, 0, true, vec![5; 8]));
    assert_eq!(verdict(&bad, &fleet), (3, 0));
    assert_eq!(listing(&bad), "refused 3\n");
}

/// Route 0 4 1 5, ward 2 soiled: before the clean stop 1, that is in legs 0 and 4, it is struck, by the stop next
/// to the place (leg 4) and by the one farther on (leg 0). Behind it, in leg 1, it stays.
#[test]
fn a_soiled_node_is_struck_where_a_clean_stop_lies_after() {
    assert_eq!(left(&day(), &[4, 1], 2), (vec![1], 1));
    // Right behind the clean stop is enough, and before it nothing else is asked.
    assert_eq!(left(&day(), &[1, 4], 2), (vec![1, 4], 1));
    assert_eq!(left(&day(), &[4], 2), (vec![0, 4], 0));
}

/// Route 0 2 4 5, ward 1 clean: at the soiled stop 2 (leg 2) and behind it (leg 4) it is struck, before it, in leg
/// 0, it stays.
#[test]
fn a_clean_node_is_struck_where_a_soiled_stop_is_at_or_before() {
    assert_eq!(left(&day(), &[2, 4], 1), (vec![0], 1));
    assert_eq!(left(&day(), &[4, 2], 1), (vec![0, 4], 1));
    assert_eq!(left(&day(), &[4], 1), (vec![0, 4], 0));
}

/// Ward 3 has both: it is asked both, and nothing is asked of it against itself. On 0 1 2 5 only the leg between
/// the clean and the soiled stop is left; on 0 2 1 5, which breaks the rule already, none is; alone it stays.
#[test]
fn a_node_with_both_jobs_is_asked_both() {
    assert_eq!(left(&day(), &[1, 2], 3), (vec![1], 1));
    assert_eq!(left(&day(), &[2, 1], 3), (vec![], 1));
    assert_eq!(left(&day(), &[1], 3), (vec![1], 1));
    assert_eq!(left(&day(), &[2], 3), (vec![0], 1));
    assert_eq!(left(&day(), &[4], 3), (vec![0, 4], 0));
}

/// Beside a stop with both jobs: clean before it, soiled behind it, and nothing with both.
#[test]
fn a_stop_with_both_jobs_is_both() {
    assert_eq!(left(&day(), &[3], 1), (vec![0], 1));
    assert_eq!(left(&day(), &[3], 2), (vec![3], 1));
    let two = sheet_of(1, 1, "4, 1 3 0 1, 2 3 0 1, 1 4 0 1, 2 4 0 1");
    assert_eq!(left(&two, &[3], 4), (vec![], 1));
    assert!(!alive(&two, &[3, 4]) && !alive(&two, &[4, 3]));
    assert!(alive(&two, &[3]) && alive(&two, &[4]));
}

/// 0 2 1 5 breaks the rule, and still each place is asked for its own ward only: ward 4 has no jobs and stays, the
/// soiled ward 3 stays behind the clean stop.
#[test]
fn a_broken_route_strikes_no_other_node() {
    let jobs = "3, 1 1 0 1, 2 2 0 1, 2 3 0 1";
    assert_eq!(left(&sheet_of(1, 1, jobs), &[2, 1], 4), (vec![0, 2, 1], 1));
    assert_eq!(left(&sheet_of(1, 1, jobs), &[2, 1], 3), (vec![1], 1));
}

#[test]
fn the_verdict_asks_every_pair() {
    for (wards, well) in [
        (&[][..], true),
        (&[1, 2], true),
        (&[2, 1], false),
        // Not next to each other.
        (&[2, 4, 1], false),
        (&[1, 4, 2], true),
        // With both jobs: alone, behind the clean one, before the soiled one.
        (&[3], true),
        (&[1, 3, 2], true),
        (&[3, 1], false),
        (&[2, 3], false),
        (&[4, 1, 3, 2], true),
    ] {
        assert_eq!(alive(&day(), wards), well, "{wards:?}");
        assert!(alive(&sheet_of(1, 0, JOBS), wards), "{wards:?}");
    }
}

/// The order of the jobs on the sheet does not matter, nor which of a ward's jobs comes first.
#[test]
fn every_job_of_a_ward_is_looked_at() {
    for jobs in
        ["3, 2 3 0 1, 1 3 0 1, 2 2 0 1", "3, 1 3 0 1, 2 3 0 1, 2 2 0 1", "3, 2 2 0 1, 1 3 0 1, 2 3 0 1"]
    {
        assert_eq!(left(&sheet_of(1, 1, jobs), &[3], 2), (vec![3], 1), "{jobs}");
        assert_eq!(left(&sheet_of(1, 1, jobs), &[2], 3), (vec![0], 1), "{jobs}");
        assert!(!alive(&sheet_of(1, 1, jobs), &[2, 3]), "{jobs}");
    }
}

/// A transfer from 4 to 3 is neither clean at 3 nor soiled at 4.
#[test]
fn transfers_do_not_matter() {
    let jobs = "3, 1 1 0 1, 2 2 0 1, 3 4 3 1";
    let bytes = sheet_of(1, 1, jobs);
    // Were 3 clean, 0 2 4 3 5 would be dead; were 4 soiled, 0 4 1 3 5 would be.
    assert!(alive(&bytes, &[2, 4, 3]) && alive(&bytes, &[4, 1, 3]));
    // Were 3 clean, ward 2 would be struck before it; were 4 soiled, ward 1 would be struck behind it.
    assert_eq!(left(&bytes, &[4, 3], 2), (vec![0, 4, 3], 0));
    assert_eq!(left(&bytes, &[4, 3], 1), (vec![0, 4, 3], 0));
    // Its ends, not placed, behind a soiled stop and before a clean one.
    assert_eq!(left(&bytes, &[2], 3), (vec![0, 2], 1));
    assert_eq!(left(&bytes, &[1], 4), (vec![0, 1], 1));
    // A ward with a transfer end and a clean job is clean by the job.
    let more = sheet_of(1, 1, "3, 1 4 0 1, 2 2 0 1, 3 4 3 1");
    assert_eq!(left(&more, &[2], 4), (vec![0], 1));
}

/// Ward 1, clean and the first of a transfer to 3, is struck on 0 2 5 in leg 2 (round 1). Ward 3 keeps leg 2, since
/// 1 may come in leg 0; but with leg 0 closed to 1, ward 3 loses its support in round 2.
#[test]
fn a_partner_falls_one_round_later() {
    let bytes = sheet_of(1, 1, "3, 1 1 0 1, 2 2 0 1, 3 1 3 1");
    assert_eq!(left(&bytes, &[2], 3), (vec![0, 2], 1));
    let mut state = on(&[2]);
    state.sets[1] = 0b100;
    state.sets[3] = 0b100;
    let out = step(&bytes, &Fleet::lone(state), &[0; 64], [5, 0, 0]);
    assert_eq!((out.rounds, out.fleet.vans[0].sets[1], out.fleet.vans[0].sets[3]), (2, 0, 0));
}

/// Profile 0: settling strikes none of it, the verdict does not ask.
#[test]
fn without_the_profile_nothing_is_asked() {
    let bytes = sheet_of(1, 0, JOBS);
    for wards in [&[1][..], &[2], &[3], &[2, 1]] {
        for x in (1..ENDS).filter(|x| !wards.contains(x)) {
            let all = [&[0], wards].concat();
            assert_eq!(left(&bytes, wards, x), (all, 0), "{wards:?} {x}");
        }
    }
    assert!(alive(&bytes, &[2, 1]) && alive(&bytes, &[3, 1, 2]));
}

/// Fresh there is no stop but the dock, which has no jobs: nothing is struck, and every ward can be placed.
#[test]
fn a_fresh_van_loses_nothing() {
    let (answer, fresh) = open(&day());
    assert_eq!((answer, fresh.open_places(), verdict(&day(), &fresh)), (0, 4, (0, 1)));
    let out = run(&day(), &[[5, 0, 0]]);
    assert_eq!((out.rounds, out.fleet == fresh), (0, true));
}

/// Placing asks nothing: 2, then 1 behind it, unsettled, is accepted and dead; settled between, 1 is not open there.
#[test]
fn placing_does_not_ask_the_profile() {
    let out = run(&day(), &[[1, 0, 2], [1, 2, 1]]);
    assert_eq!(
        (out.answer, out.fleet.vans[0].path(), verdict(&day(), &out.fleet)),
        (0, vec![0, 2, 1, 5], (0, 0))
    );
    assert_eq!(run(&day(), &[[1, 0, 2], [5, 0, 0], [1, 2, 1]]).answer, 15);
    let out = run(&day(), &[[1, 0, 2], [5, 0, 0], [1, 0, 1]]);
    assert_eq!((out.answer, verdict(&day(), &out.fleet)), (0, (0, 1)));
    // One record for each ward that lost a place: 1 and 3.
    let out = run(&day(), &[[1, 0, 2], [5, 0, 0]]);
    assert_eq!((out.fleet.records(), &out.trail[2..6]), (3, &[257, 0b101, 259, 0b101][..]));
}

/// The number is for all vans, and the rule is for each route by itself: 2 in van 0 and 1 in van 1 are no pair.
#[test]
fn the_rule_holds_in_every_van_by_itself() {
    let bytes = sheet_of(2, 1, JOBS);
    let apart = run(&bytes, &[[1, 0, 2], [257, 0, 1]]);
    assert_eq!((apart.answer, verdict(&bytes, &apart.fleet)), (0, (0, 1)));
    let second = run(&bytes, &[[257, 0, 2], [257, 2, 1]]);
    assert_eq!((second.answer, verdict(&bytes, &second.fleet)), (0, (0, 0)));
    // In van 1, on 0 2 5, ward 1 falls in leg 2; in van 0 it stays.
    let settled = run(&bytes, &[[257, 0, 2], [261, 0, 0], [5, 0, 0]]);
    assert_eq!((settled.fleet.vans[0].sets[1], settled.fleet.vans[1].sets[1]), (1, 1));
}

/// Demand 2, with the profile and without: what the fresh van stands for is the same 65 rounds, as a profile is no
/// matter of belonging. Of these, 28 keep the rule: with 1 alone of {1, 2, 3}, 2 alone, 3 alone, 1 2, 1 3, 3 2 and
/// 1 3 2, or none of them, ward 4 left out or put anywhere: 2 + 3 · 3 + 3 · 4 + 5 = 28.
#[test]
fn the_rounds_of_the_fresh_van() {
    for (profile, kept) in [(0, 65), (1, 28)] {
        let bytes = sheet_of(1, profile, JOBS);
        let sheet = read(&bytes).ok().unwrap();
        let all = choices(&sheet, &open(&bytes).1);
        let keeping = all.iter().filter(|choice| all_keep_rules(&sheet, choice)).count();
        assert_eq!((all.len(), keeping), (65, kept), "{profile}");
    }
}

/// Settling loses no round that keeps the rules: on 0 3 5 with 1, 2 and 4 open everywhere.
#[test]
fn settling_loses_no_round_that_keeps_the_rules() {
    let (bytes, before) = (day(), Fleet::lone(on(&[3])));
    let sheet = read(&bytes).ok().unwrap();
    let after = step(&bytes, &before, &[0; 64], [5, 0, 0]).fleet;
    let keeping = |fleet: &Fleet| {
        let mut all = choices(&sheet, fleet);
        all.retain(|choice| all_keep_rules(&sheet, choice));
        all
    };
    assert!(after.open_places() < before.open_places());
    assert_eq!(keeping(&before), keeping(&after));
}

/// Demand 3, with the profile and without: 1 before 3 before 2, in two orders, with and without settling between.
#[test]
fn runs_that_end_alike_settle_alike() {
    for profile in [0, 1] {
        let bytes = sheet_of(1, profile, JOBS);
        let one = run(&bytes, &[[1, 0, 1], [5, 0, 0], [1, 1, 2], [5, 0, 0], [1, 1, 3], [5, 0, 0]]);
        let two = run(&bytes, &[[1, 0, 3], [1, 3, 2], [1, 0, 1], [5, 0, 0]]);
        let (one, two) = (&one.fleet.vans[0], &two.fleet.vans[0]);
        assert_eq!(one.path(), [0, 1, 3, 2, 5]);
        assert_eq!((one.path(), one.sets), (two.path(), two.sets));
    }
}

/// 01's sheet has a transfer and nothing else, so that not even the profile changes its listing.
#[test]
fn the_sheet_of_01_stands_with_0() {
    assert!(SHEET.starts_with("4 2 60 1 0 |"));
    assert_eq!(listing(&bytes_with(&[])), LISTING);
    assert_eq!(listing(&bytes_with(&[(4, 1)])), LISTING);
    assert_eq!(listing(&bytes_with(&[(4, 2)])), "refused 3\n");
}

/// 60,396 bytes, with either number: the fullest sheet is read, and nothing longer.
#[test]
fn the_programs_bound_is_the_fullest_sheet() {
    for profile in [0, 1] {
        let mut fullest = full::day(&mut Rng::of(1, 64), 64, 8);
        fullest.profile = profile;
        fullest.steps = vec![[6, 0, 0]; 2000];
        let mut bytes = fullest.bytes();
        assert_eq!((bytes.len(), PROGRAM_BYTES, open(&bytes).0), (60_396, 60_396, 0));
        assert_eq!(listing(&bytes).lines().count(), 2_008);
        bytes.extend([0; 4]);
        assert_eq!((listing(&bytes), open(&bytes).0), ("refused 1\n".to_string(), 1));
    }
}
