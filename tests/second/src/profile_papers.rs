//! Clean before soiled (02, No. 11) by hand, on 01's ways: ward 1 is clean, ward 2 soiled, and the door of ward 2 is
//! shut at 100 like the others, so that the profile alone decides.

use crate::face;
use crate::papers::SHEET;
use crate::rounds::{keeps_rules, rounds_of};
use crate::sheet::read;
use crate::step::{step, Outcome};
use crate::text::to_bytes;

const JOBS: &str = "2, 1 1 0 1, 2 2 0 1";
const BOTH: &str = "3, 1 1 0 1, 2 1 0 1, 2 2 0 1";

/// Limits with the profile's number last.
fn sheet(limits: &str, jobs: &str) -> Vec<u8> {
    let text = SHEET.replacen("4 2 60 1 0", limits, 1).replacen("1, 3 1 2 2", jobs, 1);
    to_bytes(&text.replacen("0 25 5", "0 100 5", 1)).expect("01's own text")
}

fn run(bytes: &[u8], steps: &[[u64; 3]]) -> Outcome {
    let mut out = Outcome { answer: 0, rounds: 0, fleet: face::open(bytes).1, trail: vec![0; 64] };
    for &words in steps {
        out = step(bytes, &out.fleet, &out.trail, words);
    }
    out
}

/// The set of a ward and the rounds, once another one is placed after 0 and all is settled.
fn left(bytes: &[u8], placed: u64, x: usize) -> (u64, u64) {
    let out = run(bytes, &[[1, 0, placed], [5, 0, 0]]);
    (out.fleet.vans[0].sets[x], out.rounds)
}

/// Route 0 2 1 3, placed without settling between.
fn turned(bytes: &[u8]) -> (u64, u64) {
    face::verdict(bytes, &run(bytes, &[[1, 0, 2], [1, 2, 1]]).fleet)
}

/// The rounds of the fresh state, and those of them that keep the rules.
fn rounds(bytes: &[u8]) -> (usize, usize) {
    let Ok(sheet) = read(bytes) else { return (0, 0) };
    let all = rounds_of(sheet.n(), &face::open(bytes).1.vans[0]);
    (all.len(), all.iter().filter(|round| keeps_rules(&sheet, 0, round)).count())
}

/// Name and whether it holds.
pub fn table() -> Vec<(&'static str, bool)> {
    let [with, without] = ["4 2 60 1 1", "4 2 60 1 0"].map(|limits| sheet(limits, JOBS));
    let both = sheet("4 2 60 1 1", BOTH);
    vec![
        ("profile: clean before the soiled stop, not behind it", left(&with, 2, 1) == (0b001, 1)),
        ("profile: soiled behind the clean stop, not before it", left(&with, 1, 2) == (0b010, 1)),
        (
            "profile: one stop may have both",
            left(&both, 1, 2) == (0b010, 1) && left(&both, 2, 1) == (0b001, 1),
        ),
        ("profile: soiled before clean is dead", turned(&with) == (0, 0) && turned(&both) == (0, 0)),
        ("profile: 5 rounds belong, all but 0 2 1 3 keep the rules", rounds(&with) == (5, 4)),
        (
            "no profile: nothing of this is asked",
            left(&without, 2, 1) == (0b101, 0) && turned(&without) == (0, 1),
        ),
        ("no profile: 5 rounds belong and keep the rules", rounds(&without) == (5, 5)),
        ("profile 2", face::open(&sheet("4 2 60 1 2", JOBS)).0 == 3),
        ("limits without its number", face::open(&sheet("3 2 60 1", JOBS)).0 == 2),
    ]
}
