//! Cases for `probe`, in families taken by turns, so that a run of some hundreds meets every
//! question and every refusal.

use super::draft::{self, Draft};
use super::{back, classes, damage, edges, fleets, profiles, refused, sheets, spoil, steps, unadmitted};
use crate::fleet::Fleet;
use crate::probe::{Case, MOST_BYTES, MOST_TRAIL, OPEN, PLACES, SECTION, STEP, VERDICT};
use crate::rng::Rng;
use crate::sheet::Sheet;
use crate::step::step_on;

/// Case `number` of the run with this seed.
pub fn case(seed: u64, number: u64) -> Case {
    let mut rng = Rng::of(seed, number);
    let rng = &mut rng;
    match number % 25 {
        2 if number % 2 == 0 => one_way_too_long(rng),
        0..=2 => opening(rng),
        3 | 10 => stepping(rng, true),
        4 => section(rng),
        5 => asking(rng),
        6 => {
            if rng.one_in(3) {
                must_alone(rng)
            } else {
                asking(rng)
            }
        }
        7..=9 => stepping(rng, false),
        11 => tight_room(rng),
        12 => back::along_steps(rng),
        13 | 14 => back::made_up(rng),
        15..=18 => at_the_edge(rng),
        19 => refused::case(rng, damage::heavy),
        20 => refused::case(rng, classes::shut_out),
        21 => unadmitted::case(rng),
        22 | 23 => profiles::case(rng),
        _ => anything(rng),
    }
}

fn sized(rng: &mut Rng, rare: usize) -> usize {
    if rng.one_in(rare) {
        64
    } else {
        sheets::any_size(rng)
    }
}

/// A sheet that steps run on; one in eight breaks the triangle, which steps do not ask.
pub fn runnable(rng: &mut Rng) -> (Vec<u8>, Sheet) {
    let made = draft_for_steps(rng);
    (made.bytes(), made.sheet())
}

pub fn draft_for_steps(rng: &mut Rng) -> Draft {
    let (size, vans) = (sized(rng, 60), sheets::any_vans(rng));
    let mut made = sheets::plain(rng, size, vans);
    if rng.one_in(8) && size > 2 {
        damage::triangle(rng, &mut made);
    }
    if rng.one_in(3) {
        made.steps = (0..rng.below(9)).map(|_| [rng.any() as u32, 1, 2]).collect();
    }
    made
}

fn damaged(rng: &mut Rng) -> Vec<u8> {
    let size = sized(rng, 90);
    let mut made = sheets::with_steps(rng, size, 3);
    match rng.below(21) {
        0 => vec![],
        12 | 13 => damage::short_and_wrong(rng, made),
        14 => classes::miscounted(rng, made),
        15 | 16 => {
            classes::wrong_word(rng, &mut made);
            made.bytes()
        }
        17 | 18 => {
            profiles::wrong_number(rng, &mut made);
            made.bytes()
        }
        19 | 20 => profiles::other_layout(rng, made),
        1 => (0..4 * rng.below(40)).map(|_| rng.any() as u8).collect(),
        2 => overlong(rng),
        _ => damage::sheet(rng, made),
    }
}

/// More than the program reads; here judged in the normal order.
fn overlong(rng: &mut Rng) -> Vec<u8> {
    let heads: [&[u32]; 10] = [
        &[3],
        &[28],
        &[4, 1001, 1, 1, 0],
        &[4, 1, 1, 3, 0],
        &[4, 1, 1, 1, 2],
        &[10, 1, 1, 1, 1, 1, 1, 1, 1_000_001, 1, 0],
        &[4, 1, 1, 1, 0, 65],
        &[4, 1, 1, 1, 0, 2, 5, 4, 0, 1],
        &[4, 1, 1, 1, 0, 2, 0, 0, 0, 0],
        &[4, 1, 1, 1, 0, 2, 0, 0, 0, 1, 0, 0, 0, 1],
    ];
    let mut words = rng.pick(&heads).to_vec();
    words.resize(MOST_BYTES as usize / 4 - rng.below(300), 0);
    draft::to_bytes(&words)
}

fn opening(rng: &mut Rng) -> Case {
    let size = sized(rng, 40);
    let bytes = if rng.one_in(4) { sheets::with_steps(rng, size, 4).bytes() } else { damaged(rng) };
    let fleet = if rng.one_in(4) { fleets::garbage(rng) } else { Fleet::all_open(5, 3) };
    let trail = (0..rng.below(5)).map(|_| rng.any()).collect();
    Case { question: OPEN, words: [rng.any(), 1, 2], fleet, bytes, trail }
}

/// A sheet of any size, often of a few nodes more than a round number, that opens but for one way;
/// often one to the last node or the first, so that a look that ends too early is seen.
fn one_way_too_long(rng: &mut Rng) -> Case {
    let few = 8 * (1 + rng.below(7)) + 1 + rng.below(2);
    let any = 3 + rng.below(62);
    let size = *rng.pick(&[few, any, any]);
    let mut made = sheets::plain(rng, size, 1);
    damage::one_way(rng, &mut made);
    Case { question: OPEN, words: [0; 3], fleet: Fleet::zero(), bytes: made.bytes(), trail: vec![] }
}

/// The number stands in all three words, so that it does not matter which one is read.
fn section(rng: &mut Rng) -> Case {
    let number = if rng.one_in(5) { steps::odd(rng) } else { rng.below(8) as u64 };
    let size = 2 + rng.below(6);
    let mut made = sheets::with_steps(rng, size, 5);
    if rng.one_in(6) {
        damage::triangle(rng, &mut made);
    }
    let bytes = if rng.one_in(3) { damaged(rng) } else { made.bytes() };
    Case { question: SECTION, words: [number; 3], fleet: Fleet::zero(), bytes, trail: vec![] }
}

/// Open places and verdict, of reached, made-up and broken fleets.
fn asking(rng: &mut Rng) -> Case {
    let (mut bytes, sheet) = runnable(rng);
    let question = *rng.pick(&[PLACES, VERDICT]);
    let mut fleet = if rng.one_in(2) { fleets::made_up(rng, &sheet) } else { reached(rng, &sheet).0 };
    if rng.one_in(3) {
        let records: Vec<u64> = (0..sheet.v()).map(|_| *rng.pick(&[0, 3, 1 << 40, u64::MAX - 1])).collect();
        fleets::put_levels(rng, &sheet, &mut fleet, &records);
    }
    if rng.one_in(3) {
        spoil::break_one(rng, &sheet, &mut fleet);
    }
    if rng.one_in(3) {
        bytes = damaged(rng);
    }
    Case { question, words: [rng.any(); 3], fleet, bytes, trail: vec![7; rng.below(3)] }
}

/// A fleet at ease but for one ward: open or placed in one van at most, with its mark or not.
fn must_alone(rng: &mut Rng) -> Case {
    let (size, vans) = (3 + rng.below(5), sheets::any_vans(rng));
    let mut made = sheets::plain(rng, size, vans);
    edges::loosen(rng, &mut made);
    let sheet = made.sheet();
    let mut fleet = Fleet::all_open(size, vans);
    let (x, kept) = (1 + rng.below(size - 2), rng.below(vans));
    for van in 0..vans {
        fleet.vans[van].sets[x] = u64::from(van == kept && rng.one_in(2));
    }
    if fleet.vans[kept].sets[x] == 1 && rng.one_in(3) {
        let word = 256 * kept as u64 + 1;
        fleet = step_on(&sheet, &fleet, &vec![0; 8 * vans], [word, 0, x as u64]).fleet;
    }
    fleet.must = 1 << x;
    Case { question: VERDICT, words: [0; 3], fleet, bytes: made.bytes(), trail: vec![] }
}

pub fn reached(rng: &mut Rng, sheet: &Sheet) -> (Fleet, Vec<u64>) {
    let most = if sheet.n() > 20 { 12 } else { 30 };
    let count = rng.below(most);
    let (fleet, trail) = fleets::reached(rng, sheet, count);
    let more = *rng.pick(&[2, 8, 40]);
    let trail = fleets::trimmed(rng, sheet, &fleet, &trail, more);
    (fleet, trail)
}

/// Any step from a reached or made-up fleet; `broken`: with damage to fleet or sheet.
fn stepping(rng: &mut Rng, broken: bool) -> Case {
    let (mut bytes, sheet) = runnable(rng);
    let (mut fleet, mut trail) = reached(rng, &sheet);
    if rng.one_in(3) {
        fleet = fleets::made_up(rng, &sheet);
        let room = crate::trail::room(trail.len(), sheet.v());
        let records = fleets::few_records(rng, &sheet, room);
        fleets::put_levels(rng, &sheet, &mut fleet, &records);
    }
    let mut words = steps::pick(rng, &sheet, &fleet);
    if rng.one_in(5) {
        let at = rng.below(3);
        words[at] = match rng.below(3) {
            0 => steps::odd(rng),
            1 => rng.below(sheet.n()) as u64,
            // The same number to anyone who reads only the low bits.
            _ => words[at] ^ *rng.pick(&[64, 256, 1 << 16, 1 << 32]),
        };
    }
    if broken {
        match rng.below(7) {
            0 | 1 => bytes = damaged(rng),
            2 => fleet = fleets::garbage(rng),
            _ => spoil::break_one(rng, &sheet, &mut fleet),
        }
        if rng.one_in(4) {
            trail.truncate(rng.below(trail.len() + 1));
        }
    }
    Case { question: STEP, words, fleet, bytes, trail }
}

/// The trail is cut to just too little, just enough, or a little more than the step needs, often
/// for one van only.
fn tight_room(rng: &mut Rng) -> Case {
    let (bytes, sheet) = runnable(rng);
    let v = sheet.v();
    let (mut fleet, trail) =
        if rng.one_in(4) { (Fleet::fresh(&sheet), vec![]) } else { reached(rng, &sheet) };
    if v > 1 && rng.one_in(2) {
        fleet.vans[rng.below(v)].records += 1 + rng.below(4) as u64;
    }
    let words = steps::pick_of(rng, &sheet, &fleet, &[1, 1, 1, 2, 3, 4, 5, 5, 8]);
    let ample = 2 * v * (fleets::most_records(&fleet) as usize + 100);
    let after = step_on(&sheet, &fleet, &vec![5; ample], words).fleet;
    let room = fleets::most_records(&after) as usize + rng.below(3);
    let each = (2 * room + rng.below(2)).saturating_sub(2);
    let trail = super::parts::join(rng, &super::parts::cut(&trail, v), each);
    Case { question: STEP, words, fleet, bytes, trail }
}

/// Settling, open places and verdict where the sheet is bent to the edge of a test.
fn at_the_edge(rng: &mut Rng) -> Case {
    let mut made = draft_for_steps(rng);
    if rng.below(4) > 0 {
        edges::loosen(rng, &mut made);
    }
    let sheet = made.sheet();
    let mut fleet = if rng.one_in(2) { fleets::made_up(rng, &sheet) } else { reached(rng, &sheet).0 };
    let van = rng.below(sheet.v());
    if rng.below(3) > 0 {
        fleets::quiet_but(rng, &sheet, &mut fleet, van);
    }
    for _ in 0..1 + rng.below(2) {
        edges::sharpen(rng, &mut made, van, &fleet.vans[van]);
    }
    let records = fleets::few_records(rng, &sheet, 3);
    fleets::put_levels(rng, &sheet, &mut fleet, &records);
    let question = *rng.pick(&[STEP, STEP, STEP, VERDICT]);
    let words = [256 * van as u64 + 5, steps::odd(rng), 1];
    let each = 2 * (3 + sheet.n());
    Case { question, words, fleet, bytes: made.bytes(), trail: vec![3; each * sheet.v()] }
}

/// A long trail, a full sheet, or nothing that makes sense.
fn anything(rng: &mut Rng) -> Case {
    let mut case = stepping(rng, false);
    match rng.below(6) {
        0 if rng.one_in(3) => case.trail.resize(MOST_TRAIL as usize, 1),
        0 => case.trail.resize(2_000 + rng.below(9), 1),
        1 => case.fleet = fleets::garbage(rng),
        2 => case.question = rng.below(4) as u64,
        3 => case.words = [rng.any(), rng.any(), rng.any()],
        4 => case.bytes.truncate(rng.below(case.bytes.len() + 1)),
        _ => damage::length(rng, &mut case.bytes),
    }
    case
}
