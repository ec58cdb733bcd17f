//! What a comparison must have met, by name.

use super::{back_coverage, fleet_coverage};
use crate::fleet::Fleet;
use crate::probe::{Case, Heads, OPEN, PLACES, SECTION, STEP, VERDICT};
use crate::sheet::{read, Sheet, PROGRAM_BYTES};
use crate::step::Step;
use crate::tally::Tally;
use crate::whole::triangle_broken;
use crate::{class_calls, class_words, classes, doors, heavy, refused};
use crate::{profile_calls, profile_verdicts, profile_words};

/// Which refusals each kind of step can meet, besides those of the sheet, 11 and 19.
const OF_KIND: [(u64, &[u64]); 8] = [
    (1, &[21, 12, 13, 14, 15, 22, 17]),
    (2, &[21, 12, 13, 14, 15, 17]),
    (3, &[21, 12, 13, 16, 17]),
    (4, &[21, 12, 13, 17]),
    (5, &[21, 17]),
    (6, &[18]),
    (7, &[18, 20]),
    (8, &[12, 17]),
];

/// Besides the answers: things that must be among the cases.
const MORE: &[&str] = &[
    "placing with room 0: answer 17",
    "verdict: alive",
    "verdict: dead",
    "settling: rounds 0",
    "settling: rounds 1",
    "settling: rounds 2",
    "section: number not in 1 to 6",
    "section: bytes of a sheet refused by 5",
    "step: accepted on a sheet refused by 5",
    "bad case: cut short",
    "bad case: sheet over its bound",
    "bad case: trail over its bound",
    "sheet: above 60,396 bytes",
    "sheet: 64 nodes",
    "sheet: 2 nodes",
    "trail: odd length",
    "trail: words left over",
    "trail: empty",
    "trail: 65,536 words",
];

pub fn of_probes() -> Tally {
    let mut names = vec![];
    for number in 0..=7 {
        names.push(format!("open: answer {number}"));
    }
    for number in [0, 1, 2, 3, 4, 6, 7].into_iter().chain(11..=22) {
        names.push(format!("step: answer {number}"));
    }
    for (kind, numbers) in OF_KIND {
        for number in numbers.iter().chain(&[0, 19]) {
            names.push(format!("step kind {kind}: answer {number}"));
        }
    }
    for number in [0, 1, 2, 3, 4, 6, 7, 19] {
        names.push(format!("open places: answer {number}"));
        names.push(format!("verdict: answer {number}"));
    }
    for number in 1..=6 {
        names.push(format!("section {number}: bytes"));
    }
    for number in [1, 2, 3, 4, 6, 7] {
        names.push(format!("section: empty by refusal {number}"));
    }
    for vans in 1..=8 {
        names.push(format!("step: accepted with {vans} vans"));
    }
    let fleets = [fleet_coverage::NAMES, back_coverage::NAMES];
    let groups = [MORE, doors::NAMES, heavy::OF_SHEETS, &heavy::REFUSED.all(), heavy::OF_SETTLING];
    let of_classes =
        [classes::NAMES, &class_calls::REFUSED.all(), class_calls::OF_STEPS, class_calls::OF_FLEETS];
    let of_profile = [profile_calls::NAMES, profile_verdicts::NAMES];
    let all = fleets.into_iter().chain(groups).chain(of_classes).chain(of_profile);
    names.extend(all.flatten().map(|name| name.to_string()));
    names.extend(class_words::names());
    names.extend(profile_words::names());
    Tally::expecting(names)
}

pub fn note_probe(tally: &mut Tally, case: &Case) {
    let sheet = read(&case.bytes);
    note_shape(tally, case, sheet.as_ref().map_or((0, 1), |s| (s.n(), s.v())));
    if case.question == SECTION {
        return note_section(tally, case.words[0], &sheet);
    }
    let (heads, after, _) = case.ask();
    note_answer(tally, case, &heads);
    match (case.question, heads.answer) {
        (OPEN, answer) => {
            note_opened(tally, &case.bytes, answer);
            class_words::note_opened(tally, &case.bytes, answer);
            profile_words::note_opened(tally, &case.bytes, answer);
        }
        (_, 6) => refused::note_call(tally, case, &heavy::REFUSED),
        (_, 7) => refused::note_call(tally, case, &class_calls::REFUSED),
        (_, answer) => {
            if let Ok(sheet) = sheet {
                note_call(tally, &sheet, case, answer, &after);
            }
        }
    }
}

fn note_answer(tally: &mut Tally, case: &Case, heads: &Heads) {
    let name = match case.question {
        OPEN => "open",
        STEP => "step",
        PLACES => "open places",
        _ => "verdict",
    };
    tally.add(format!("{name}: answer {}", heads.answer));
    if name == "verdict" && heads.answer == 0 {
        tally.add(if heads.alive == 1 { "verdict: alive" } else { "verdict: dead" });
    }
    if case.question == STEP {
        note_step(tally, case, heads.answer, heads.rounds);
    }
}

fn note_opened(tally: &mut Tally, bytes: &[u8], answer: u64) {
    heavy::note_opened(tally, bytes, answer);
    classes::note_opened(tally, bytes, answer);
}

/// Of a step or a question on a sheet that is not refused.
fn note_call(tally: &mut Tally, sheet: &Sheet, case: &Case, answer: u64, after: &Fleet) {
    if answer != 19 {
        class_calls::note(tally, sheet, case, answer);
    }
    match (case.question, answer) {
        (_, 19) => fleet_coverage::note_form(tally, sheet, case),
        (STEP, answer) => {
            note_accepted(tally, sheet, answer);
            fleet_coverage::note_step(tally, sheet, case, answer);
            back_coverage::note(tally, sheet, case, answer, after);
            let step = Step::of(case.words);
            if (step.kind, answer) == (5, 0) {
                let state = &case.fleet.vans[step.van as usize];
                doors::note_settled(tally, sheet, state);
                heavy::note_settled(tally, sheet, state);
                profile_calls::note_settled(tally, sheet, step.van as usize, state);
            }
        }
        _ => {
            fleet_coverage::note_verdict(tally, sheet, case);
            if case.question == VERDICT {
                doors::note_judged(tally, sheet, &case.fleet);
                profile_verdicts::note_judged(tally, sheet, &case.fleet);
            }
        }
    }
}

fn note_section(tally: &mut Tally, number: u64, sheet: &Result<Sheet, u64>) {
    match sheet {
        _ if !(1..=6).contains(&number) => tally.add("section: number not in 1 to 6"),
        Err(refusal) => tally.add(format!("section: empty by refusal {refusal}")),
        Ok(sheet) => {
            tally.add(format!("section {number}: bytes"));
            if triangle_broken(sheet) {
                tally.add("section: bytes of a sheet refused by 5");
            }
        }
    }
}

fn note_accepted(tally: &mut Tally, sheet: &Sheet, answer: u64) {
    if answer == 0 {
        tally.add(format!("step: accepted with {} vans", sheet.v()));
        if triangle_broken(sheet) {
            tally.add("step: accepted on a sheet refused by 5");
        }
    }
}

fn note_step(tally: &mut Tally, case: &Case, answer: u64, rounds: u64) {
    let kind = Step::of(case.words).kind;
    if (1..=8).contains(&kind) && (answer == 0 || answer > 11) {
        tally.add(format!("step kind {kind}: answer {answer}"));
    }
    if kind == 1 && answer == 17 && case.trail.len() < 2 {
        tally.add("placing with room 0: answer 17");
    }
    if kind == 5 && answer == 0 {
        tally.add(format!("settling: rounds {rounds}"));
    }
}

fn note_shape(tally: &mut Tally, case: &Case, (n, v): (usize, usize)) {
    if case.bytes.len() > PROGRAM_BYTES {
        tally.add("sheet: above 60,396 bytes");
    }
    if n == 64 || n == 2 {
        tally.add(format!("sheet: {n} nodes"));
    }
    if case.trail.len() % v != 0 {
        tally.add("trail: words left over");
    }
    match case.trail.len() {
        0 => tally.add("trail: empty"),
        65_536 => tally.add("trail: 65,536 words"),
        length if length % 2 == 1 => tally.add("trail: odd length"),
        _ => {}
    }
}

pub fn of_listings() -> Tally {
    let mut names = vec![];
    for number in 1..=7 {
        names.push(format!("refused {number}"));
    }
    for number in [0, 11, 12, 13, 14, 15, 16, 18, 21, 22] {
        names.push(format!("step answer {number}"));
    }
    for number in 0..=2 {
        names.push(format!("rounds {number}"));
    }
    for vans in 1..=8 {
        names.push(format!("{vans} vans"));
    }
    for more in [
        "alive 0",
        "alive 1",
        "no steps",
        "above 60,396 bytes",
        "exactly 60,396 bytes",
        "64 nodes",
        "2 nodes",
        "empty input",
        "65 nodes",
    ] {
        names.push(more.to_string());
    }
    let groups =
        [doors::NAMES, heavy::OF_SHEETS, classes::NAMES, class_calls::OF_STEPS, profile_words::OF_LISTINGS];
    names.extend(groups.concat().iter().map(|name| name.to_string()));
    Tally::expecting(names)
}

/// Reads the counts off the expected listing itself, but for doors, loads, classes and the profile,
/// which are the sheet's.
pub fn note_listing(tally: &mut Tally, bytes: &[u8], expected: &str) {
    if bytes.len() > PROGRAM_BYTES {
        tally.add("above 60,396 bytes");
    } else if expected.starts_with("refused") {
        tally.add(expected.trim_end());
    }
    if bytes.len() == PROGRAM_BYTES && expected.starts_with("step") {
        tally.add("exactly 60,396 bytes");
    }
    note_listed_sheet(tally, bytes, expected);
    if bytes.is_empty() {
        tally.add("empty input");
    }
    if bytes.get(20..24) == Some(&[65, 0, 0, 0]) && expected == "refused 2\n" {
        tally.add("65 nodes");
    }
    if expected.starts_with("route") {
        tally.add("no steps");
    }
    for line in expected.lines().filter(|line| line.starts_with("step")) {
        let fields: Vec<&str> = line.split(' ').collect();
        tally.add(format!("step answer {}", fields[3]));
        tally.add(format!("rounds {}", fields[9]));
        tally.add(format!("alive {}", fields[11]));
    }
}

fn note_listed_sheet(tally: &mut Tally, bytes: &[u8], expected: &str) {
    let number = expected.trim_end().strip_prefix("refused ");
    note_opened(tally, bytes, number.map_or(0, |no| no.parse().expect("a number")));
    let Ok(sheet) = read(bytes) else { return };
    tally.add(format!("{} vans", sheet.v()));
    if sheet.n() == 64 || sheet.n() == 2 {
        tally.add(format!("{} nodes", sheet.n()));
    }
    if number.is_none() {
        profile_words::note_listed(tally, bytes, expected);
    }
    if expected.starts_with("step") {
        let fresh = Fleet::fresh(&sheet);
        if sheet.steps.iter().any(|&words| Step::of(words).kind == 5) {
            doors::note_settled(tally, &sheet, &fresh.vans[0]);
        }
        doors::note_judged(tally, &sheet, &fresh);
        for (&words, line) in sheet.steps.iter().zip(expected.lines()) {
            let answer = line.split(' ').nth(3).and_then(|word| word.parse().ok());
            class_calls::note_step(tally, &sheet, &Step::of(words), answer.expect("an answer"));
        }
    }
}
