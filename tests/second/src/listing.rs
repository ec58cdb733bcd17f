//! What the program `round` prints for a sheet: sums and verdict of the fleet, a route a van.

use std::fmt::Write;

use crate::face;
use crate::fleet::Fleet;
use crate::sheet::{self, Sheet, PROGRAM_BYTES};
use crate::step::step_on;
use crate::trail::ample;
use crate::verdict::alive;

pub fn listing(bytes: &[u8]) -> String {
    if bytes.len() > PROGRAM_BYTES {
        return "refused 1\n".to_string();
    }
    let (answer, fresh) = face::open(bytes);
    match sheet::read(bytes) {
        Ok(sheet) if answer == 0 => run(&sheet, fresh),
        _ => format!("refused {answer}\n"),
    }
}

fn run(sheet: &Sheet, fresh: Fleet) -> String {
    let mut fleet = fresh;
    let mut trail = vec![0; ample(sheet.n(), sheet.v())];
    let mut text = String::new();
    for (i, &words) in sheet.steps.iter().enumerate() {
        let out = step_on(sheet, &fleet, &trail, words);
        fleet = out.fleet;
        trail = out.trail;
        writeln!(
            text,
            "step {} answer {} open {} records {} rounds {} alive {}",
            i + 1,
            out.answer,
            fleet.open_places(),
            fleet.records(),
            out.rounds,
            u64::from(alive(sheet, &fleet))
        )
        .expect("text grows");
    }
    for state in &fleet.vans[..sheet.v()] {
        let stops: Vec<String> = state.path().iter().map(|v| v.to_string()).collect();
        writeln!(text, "route {}", stops.join(" ")).expect("text grows");
    }
    text
}
