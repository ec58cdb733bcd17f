//! What stepping back must have met: records of kind 4, and the rule between vans.

use crate::fleet::{apart, Fleet};
use crate::gen::parts;
use crate::probe::Case;
use crate::sheet::Sheet;
use crate::state::bit;
use crate::step::Step;
use crate::tally::Tally;
use crate::undo::{undo_one, MUST};

const TAKEN: &str = "back: a mark of the fleet taken away";
const TAKEN_PLACED: &str = "back: a mark taken away from a ward on a route";
const WRONG_TRAIL: &str = "back: kind 4 in another trail than the first, with the mark there";
const NO_MARK: &str = "back: kind 4 without the mark";
const SECOND_WORD: &str = "back: kind 4 with a second word";
const SHARED: &str = "back: all records fit, but vans would share a ward";
const BETWEEN: &str = "back: accepted, though vans shared a ward on the way";

pub const NAMES: &[&str] = &[TAKEN, TAKEN_PLACED, WRONG_TRAIL, NO_MARK, SECOND_WORD, SHARED, BETWEEN];

/// Walks back by itself, to see why the answer is what it is.
pub fn note(tally: &mut Tally, sheet: &Sheet, case: &Case, answer: u64, after: &Fleet) {
    let levels = case.fleet.vans[0].level_count as usize;
    if Step::of(case.words).kind != 7 || levels == 0 {
        return;
    }
    let mut now = case.fleet.clone();
    let mut shared = false;
    for (van, words) in parts::cut(&case.trail, sheet.v()).iter().enumerate() {
        let state = &case.fleet.vans[van];
        for r in (state.levels[levels - 1]..state.records).rev() {
            let record = [words[2 * r as usize], words[2 * r as usize + 1]];
            let before = now.clone();
            if undo_one(sheet, &mut now, van, record).is_none() {
                return note_misfit(tally, sheet, &before, van, record);
            }
            if record[0] / 256 == MUST && placed(sheet, &before, record[0] % 256) {
                tally.add(TAKEN_PLACED);
            }
            shared |= !apart(sheet, &now);
        }
    }
    match answer {
        0 if shared => tally.add(BETWEEN),
        20 => tally.add(SHARED),
        _ => {}
    }
    if after.must != case.fleet.must {
        tally.add(TAKEN);
    }
}

fn placed(sheet: &Sheet, fleet: &Fleet, x: u64) -> bool {
    fleet.vans[..sheet.v()].iter().any(|state| state.on_route(x as usize))
}

fn note_misfit(tally: &mut Tally, sheet: &Sheet, now: &Fleet, van: usize, record: [u64; 2]) {
    let x = (record[0] % 256) as usize;
    if record[0] / 256 != MUST || x < 1 || x + 2 > sheet.n() {
        return;
    }
    match (bit(now.must, x), record[1]) {
        (true, 0) if van > 0 => tally.add(WRONG_TRAIL),
        (false, 0) if van == 0 => tally.add(NO_MARK),
        (true, 1..) if van == 0 => tally.add(SECOND_WORD),
        _ => {}
    }
}
