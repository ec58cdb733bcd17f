//! 01's own examples, with the numbers that 02 (No. 3, 5, 7 and 11) gives them: the listing, P1 to P12, and
//! the examples that are run only.

use crate::face;
use crate::facts::Facts;
use crate::fleet::Fleet;
use crate::listing::listing;
use crate::rounds::{keeps_rules, rounds_of};
use crate::settle::settle;
use crate::sheet::{read, Sheet};
use crate::state::State;
use crate::step::step;
use crate::text::to_bytes;
use crate::verdict::van_alive;

/// With one van of class 1, class set 1 at every node (02, No. 7) and no profile (No. 11): nothing else of the
/// day changes.
pub const SHEET: &str = "4 2 60 1 0 | 4, 0 0 0 1, 0 100 5 1, 0 25 5 1, 0 100 0 1 | 1, 3 1 2 2 \
    | 16, 0 10 20 30 10 0 10 20 20 10 0 10 30 20 10 0 | 16, 0 10 20 30 10 0 10 20 20 10 0 10 30 20 10 0 \
    | 8, 5 0 0, 6 0 0, 1 0 2, 5 0 0, 1 2 1, 1 0 1, 5 0 0, 7 0 0";

pub const LISTING: &str = "\
step 1 answer 0 open 2 records 0 rounds 0 alive 1
step 2 answer 0 open 2 records 0 rounds 0 alive 1
step 3 answer 0 open 2 records 1 rounds 0 alive 1
step 4 answer 0 open 0 records 2 rounds 1 alive 0
step 5 answer 15 open 0 records 2 rounds 0 alive 0
step 6 answer 15 open 0 records 2 rounds 0 alive 0
step 7 answer 0 open 0 records 2 rounds 0 alive 0
step 8 answer 0 open 2 records 0 rounds 0 alive 1
route 0 3
";

/// Words of the sheet that the examples alter.
pub const CAPACITY: usize = 1;
pub const LIMIT: usize = 2;
pub const NODES: usize = 5;
pub const LATEST_2: usize = 15;
pub const LATEST_3: usize = 19;

pub fn bytes_with(changes: &[(usize, u32)]) -> Vec<u8> {
    let mut bytes = to_bytes(SHEET).expect("01's own text");
    for &(word, value) in changes {
        bytes[4 * word..4 * word + 4].copy_from_slice(&value.to_le_bytes());
    }
    bytes
}

fn sheet_with(changes: &[(usize, u32)]) -> Sheet {
    read(&bytes_with(changes)).unwrap_or_else(|no| panic!("01's sheet is refused by {no}"))
}

/// Fresh, then 2 placed after 0: route 0 2 3.
fn placed_two(sheet_bytes: &[u8]) -> State {
    let fresh = face::open(sheet_bytes).1;
    step(sheet_bytes, &fresh, &[0; 32], [1, 0, 2]).fleet.vans[0].clone()
}

fn fresh(sheet: &Sheet) -> State {
    Fleet::fresh(sheet).vans[0].clone()
}

fn route_facts(changes: &[(usize, u32)]) -> Facts {
    Facts::of(&sheet_with(changes), 0, &placed_two(&bytes_with(changes)))
}

/// Open sets of nodes 1 and 2, rounds and verdict once the fresh state is settled.
fn fresh_settled(changes: &[(usize, u32)]) -> (u64, u64, u64, bool) {
    let sheet = sheet_with(changes);
    let (state, rounds) = settle(&sheet, 0, &fresh(&sheet));
    (state.sets[1], state.sets[2], rounds, van_alive(&sheet, 0, &state))
}

fn one_left_after_two_placed(changes: &[(usize, u32)]) -> u64 {
    settle(&sheet_with(changes), 0, &placed_two(&bytes_with(changes))).0.sets[1]
}

/// Name and whether it holds.
pub fn table() -> Vec<(&'static str, bool)> {
    let p11 = sheet_with(&[(LATEST_3, 10)]);
    let p12 = sheet_with(&[]);
    let rounds = rounds_of(4, &fresh(&p12));
    let kept: Vec<_> = rounds.iter().filter(|r| keeps_rules(&p12, 0, r)).cloned().collect();
    vec![
        ("listing", listing(&bytes_with(&[])) == LISTING),
        ("P1", route_facts(&[]).e == [0, 20, 35]),
        ("P2", route_facts(&[]).l[1] == 20),
        ("P3", route_facts(&[]).l[0] == 0),
        ("P4", one_left_after_two_placed(&[]) & 0b001 == 0),
        ("P5", one_left_after_two_placed(&[(LATEST_2, 24)]) & 0b001 == 0),
        ("P6", one_left_after_two_placed(&[]) & 0b100 == 0),
        ("P7", fresh_settled(&[(LIMIT, 30)]) == (1, 1, 0, true)),
        ("P8", p8()),
        ("P9", p9()),
        ("P10", fresh_settled(&[(LATEST_2, 19)]) == (0, 0, 2, true)),
        ("P11", Facts::of(&p11, 0, &fresh(&p11)).l[0] == -20 && !van_alive(&p11, 0, &fresh(&p11))),
        ("P12", rounds.len() == 5 && kept == [vec![0, 3]]),
    ]
}

/// Limit 29: the way from 0 to 3 alone is 30, so both places fall and the route is dead.
fn p8() -> bool {
    let (one, two, _, alive) = fresh_settled(&[(LIMIT, 29)]);
    one == 0 && two == 0 && !alive
}

/// Two soiled jobs that are too much together: with 1's load of 2 aboard from 1 to the end, 2's
/// load of 1 fits neither before 1 nor behind it.
fn p9() -> bool {
    let text = SHEET.replacen("1, 3 1 2 2", "2, 2 1 0 2, 2 2 0 1", 1).replacen("0 25 5", "0 100 5", 1);
    let bytes = to_bytes(&text).expect("01's own text");
    let placed = step(&bytes, &face::open(&bytes).1, &[0; 32], [1, 0, 1]);
    let settled = step(&bytes, &placed.fleet, &placed.trail, [5, 0, 0]);
    let both_open = placed.fleet.vans[0].sets[2] == 0b011;
    both_open
        && (settled.rounds, settled.fleet.vans[0].sets[2]) == (1, 0)
        && face::verdict(&bytes, &settled.fleet) == (0, 1)
}

/// The examples that 01 marks as run only, and capacity 1, which was P9 before 02 (No. 5).
pub fn run_only() -> Vec<(&'static str, bool)> {
    let two =
        to_bytes("4 0 0 1 0 | 2, 0 0 0 1, 0 9 0 1 | 0 | 4, 0 1 1 0 | 4, 0 0 0 0 | 3, 5 0 0, 1 0 1, 3 1 0")
            .expect("text");
    let listed = "step 1 answer 0 open 0 records 0 rounds 0 alive 1\n\
        step 2 answer 12 open 0 records 0 rounds 0 alive 1\n\
        step 3 answer 12 open 0 records 0 rounds 0 alive 1\nroute 0 1\n";
    let bytes = bytes_with(&[]);
    let fresh = face::open(&bytes).1;
    let too_small = bytes_with(&[(CAPACITY, 1)]);
    vec![
        ("empty input", face::open(&[]).0 == 1 && listing(&[]) == "refused 1\n"),
        ("65 nodes", face::open(&bytes_with(&[(NODES, 65)])).0 == 2),
        ("2 nodes", listing(&two) == listed),
        ("capacity 1", face::open(&too_small).0 == 6 && listing(&too_small) == "refused 6\n"),
        (
            "room 0",
            step(&bytes, &fresh, &[], [1, 0, 2]).answer == 17
                && step(&bytes, &fresh, &[0], [1, 0, 2]).answer == 17,
        ),
    ]
}
