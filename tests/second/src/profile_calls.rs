//! What a run must have met of the profile in settling: places that it alone strikes, and why, and
//! places that stay beside it.

use crate::facts::Facts;
use crate::settle::settle;
use crate::sheet::Sheet;
use crate::state::State;
use crate::strike::struck;
use crate::tally::Tally;

const CLEAN_NEXT: &str = "profile: a soiled node's place struck by the clean stop next to it alone";
const CLEAN_FARTHER: &str = "profile: a soiled node's place struck by a clean stop farther on alone";
const SOILED_AT: &str = "profile: a clean node's place struck by the soiled stop at it alone";
const SOILED_EARLIER: &str = "profile: a clean node's place struck by a soiled stop before it alone";
const BOTH_CLEAN: &str = "profile: a place of a node with both jobs struck by a clean stop alone";
const BOTH_SOILED: &str = "profile: a place of a node with both jobs struck by a soiled stop alone";
const BOTH_STAYS: &str = "profile: a place of a node with both jobs stays between clean and soiled stops";
const BEHIND_LAST: &str = "profile: a soiled node's place right behind the last clean stop stays";
const BEFORE_FIRST: &str = "profile: a clean node's place right before the first soiled stop stays";
const SECOND_ON_ROUTE: &str = "profile: a soiled node's place stays before a transfer's second node";
const FIRST_ON_ROUTE: &str = "profile: a clean node's place stays behind a transfer's first node";
const SECOND_OPEN: &str = "profile: a place of a transfer's second node stays behind a soiled stop";
const FIRST_OPEN: &str = "profile: a place of a transfer's first node stays before a clean stop";
const OTHER_VAN: &str = "profile: a place struck in another van than the first";
const WARD: &str = "profile: a ward that it alone strikes in every place";
const PARTNER: &str = "profile: a second round, for the support that it took away";
const WITHOUT: &str = "no profile: a place stays that it would strike";

pub const NAMES: &[&str] = &[
    CLEAN_NEXT,
    CLEAN_FARTHER,
    SOILED_AT,
    SOILED_EARLIER,
    BOTH_CLEAN,
    BOTH_SOILED,
    BOTH_STAYS,
    BEHIND_LAST,
    BEFORE_FIRST,
    SECOND_ON_ROUTE,
    FIRST_ON_ROUTE,
    SECOND_OPEN,
    FIRST_OPEN,
    OTHER_VAN,
    WARD,
    PARTNER,
    WITHOUT,
];

/// A place that the tests of 01 leave, and the stops around it.
struct Place<'a> {
    sheet: &'a Sheet,
    x: usize,
    /// The stops up to the place, and those behind it.
    so_far: &'a [usize],
    behind: &'a [usize],
}

impl Place<'_> {
    fn clean(&self, x: usize) -> bool {
        self.sheet.jobs.iter().any(|job| job.kind == 1 && job.a == x)
    }

    fn soiled(&self, x: usize) -> bool {
        self.sheet.jobs.iter().any(|job| job.kind == 2 && job.a == x)
    }

    /// Struck since the node is soiled.
    fn by_clean_stops(&self) -> bool {
        self.soiled(self.x) && self.behind.iter().any(|&stop| self.clean(stop))
    }

    /// Struck since the node is clean.
    fn by_soiled_stops(&self) -> bool {
        self.clean(self.x) && self.so_far.iter().any(|&stop| self.soiled(stop))
    }
}

/// Of a van that is settled.
pub fn note_settled(tally: &mut Tally, sheet: &Sheet, van: usize, state: &State) {
    let mut rest = Facts::of(sheet, van, state);
    rest.profile = false;
    let mut taken = false;
    for x in (1..sheet.n() - 1).filter(|&x| state.sets[x] != 0) {
        let open: Vec<usize> = (0..=rest.last_leg()).filter(|&i| state.is_open(x, rest.path[i])).collect();
        let left: Vec<Place> = open
            .iter()
            .filter(|&&i| !struck(sheet, state, &rest, x, i))
            .map(|&i| Place { sheet, x, so_far: &rest.path[..=i], behind: &rest.path[i + 1..] })
            .collect();
        let falls = left.iter().filter(|place| place.by_clean_stops() || place.by_soiled_stops()).count();
        if sheet.profile {
            left.iter().for_each(|place| note_place(tally, place));
            taken |= falls > 0 && sheet.partner(x).is_some();
            tally.add_held([(OTHER_VAN, falls > 0 && van > 0), (WARD, falls == open.len())]);
        } else if falls > 0 {
            tally.add(WITHOUT);
        }
    }
    if taken {
        note_rounds(tally, sheet, van, state);
    }
}

fn note_place(tally: &mut Tally, place: &Place) {
    match (place.by_clean_stops(), place.by_soiled_stops()) {
        (true, false) => note_clean_stops(tally, place),
        (false, true) => note_soiled_stops(tally, place),
        (false, false) => {
            note_stays(tally, place);
            note_transfers(tally, place);
        }
        _ => {}
    }
}

fn note_clean_stops(tally: &mut Tally, place: &Place) {
    let (next, farther) = place.behind.split_at(1);
    let beyond = farther.iter().any(|&stop| place.clean(stop));
    tally.add_held([
        (CLEAN_NEXT, place.clean(next[0]) && !beyond),
        (CLEAN_FARTHER, !place.clean(next[0]) && beyond),
        (BOTH_CLEAN, place.clean(place.x)),
    ]);
}

fn note_soiled_stops(tally: &mut Tally, place: &Place) {
    let (earlier, at) = place.so_far.split_at(place.so_far.len() - 1);
    let before = earlier.iter().any(|&stop| place.soiled(stop));
    tally.add_held([
        (SOILED_AT, place.soiled(at[0]) && !before),
        (SOILED_EARLIER, !place.soiled(at[0]) && before),
        (BOTH_SOILED, place.soiled(place.x)),
    ]);
}

fn note_stays(tally: &mut Tally, place: &Place) {
    let (clean, soiled) = (place.clean(place.x), place.soiled(place.x));
    let cleaned = place.so_far.iter().any(|&stop| place.clean(stop));
    let soils = place.behind.iter().any(|&stop| place.soiled(stop));
    let at = place.so_far[place.so_far.len() - 1];
    tally.add_held([
        (BOTH_STAYS, clean && soiled && cleaned && soils),
        (BEHIND_LAST, soiled && place.clean(at)),
        (BEFORE_FIRST, clean && place.soiled(place.behind[0])),
    ]);
}

/// Where an end of a transfer, taken for clean or soiled linen, would strike.
fn note_transfers(tally: &mut Tally, place: &Place) {
    let end = |x: usize, second: bool| {
        place.sheet.jobs.iter().any(|job| job.kind == 3 && x == if second { job.b } else { job.a })
    };
    tally.add_held([
        (SECOND_ON_ROUTE, place.soiled(place.x) && place.behind.iter().any(|&stop| end(stop, true))),
        (FIRST_ON_ROUTE, place.clean(place.x) && place.so_far.iter().any(|&stop| end(stop, false))),
        (SECOND_OPEN, end(place.x, true) && place.so_far.iter().any(|&stop| place.soiled(stop))),
        (FIRST_OPEN, end(place.x, false) && place.behind.iter().any(|&stop| place.clean(stop))),
    ]);
}

fn note_rounds(tally: &mut Tally, sheet: &Sheet, van: usize, state: &State) {
    let mut without = sheet.clone();
    without.profile = false;
    if settle(sheet, van, state).1 == 2 && settle(&without, van, state).1 < 2 {
        tally.add(PARTNER);
    }
}
