//! Writes docs/TRUST.md: every definition that the promises, the face, the table P1 to P12 and the listing rest on.
//! It starts from these and goes on to whatever a definition names, until nothing new is named; laws are not
//! followed, since a law is checked and need not be believed.
//! usage: trust CRATES-FOLDER CRATES.TXT > docs/TRUST.md

mod find;
mod page;
mod read;

use std::path::Path;
use std::process::exit;

/// The table P1 to P12: what it alone rests on is counted apart.
const TABLE: &str = "Paper";

/// Where a reader begins: module and name.
const ROOTS: [(&str, &str); 9] = [
    ("planner/specs/Promises.antt", "Promised"),
    ("planner/specs/Face.antt", "open_of"),
    ("planner/specs/Face.antt", "step_of"),
    ("planner/specs/Face.antt", "count_of"),
    ("planner/specs/Face.antt", "judge_of"),
    ("day/specs/Section.antt", "section_of"),
    ("paper/specs/Paper.antt", TABLE),
    ("dock/specs/Listing.antt", "listing_of"),
    ("dock/specs/Listing.antt", "printed"),
];

fn main() {
    let arguments: Vec<String> = std::env::args().skip(1).collect();
    let [crates, order] = arguments.as_slice() else {
        eprintln!("usage: trust CRATES-FOLDER CRATES.TXT");
        exit(2);
    };
    let house = read::house(Path::new(crates), Path::new(order));
    let found = find::reachable(&house, &ROOTS);
    let without: Vec<(&str, &str)> = ROOTS.into_iter().filter(|(_, name)| *name != TABLE).collect();
    print!("{}", page::page(&house, &found, &find::reachable(&house, &without)));
}
