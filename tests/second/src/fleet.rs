//! The fleet: always eight states, of which the sheet tells how many are vans, and the marks
//! "must go somewhere".

use crate::sheet::Sheet;
use crate::slips;
use crate::state::{self, bit, State};

pub const MOST_VANS: usize = 8;
pub const WORDS: usize = MOST_VANS * state::WORDS + 1;

#[derive(Clone, PartialEq, Eq, Debug)]
pub struct Fleet {
    pub vans: [State; MOST_VANS],
    pub must: u64,
}

impl Fleet {
    pub fn zero() -> Fleet {
        Fleet { vans: std::array::from_fn(|_| State::zero()), must: 0 }
    }

    /// So many idle vans over n nodes, every ward open in each.
    pub fn all_open(n: usize, vans: usize) -> Fleet {
        let mut fleet = Fleet::zero();
        fleet.vans[..vans].fill(State::all_open(n));
        fleet
    }

    /// As opening makes it: a ward is open in the vans that it admits.
    pub fn fresh(sheet: &Sheet) -> Fleet {
        let mut fleet = Fleet::all_open(sheet.n(), sheet.v());
        if slips::on(slips::FRESH_OPENS_WHAT_THE_SET_LACKS) {
            return fleet;
        }
        for van in 0..sheet.v() {
            let asked = if slips::on(slips::FRESH_READS_THE_BIT_OF_THE_FIRST_VAN) { 0 } else { van };
            for x in (1..sheet.n() - 1).filter(|&x| !sheet.admits(x, asked)) {
                fleet.vans[van].sets[x] = 0;
            }
        }
        fleet
    }

    /// One van alone with this state.
    pub fn lone(state: State) -> Fleet {
        let mut fleet = Fleet::zero();
        fleet.vans[0] = state;
        fleet
    }

    pub fn to_words(&self) -> Vec<u64> {
        let mut out: Vec<u64> = self.vans.iter().flat_map(|state| state.to_words()).collect();
        out.push(self.must);
        out
    }

    pub fn from_words(w: &[u64]) -> Fleet {
        let of = |van: usize| State::from_words(&w[van * state::WORDS..(van + 1) * state::WORDS]);
        Fleet { vans: std::array::from_fn(of), must: w[WORDS - 1] }
    }

    /// Open places of all vans; what stands in a state that is no van is nothing in form.
    pub fn open_places(&self) -> u64 {
        self.vans.iter().map(|state| state.open_places()).sum()
    }

    pub fn records(&self) -> u64 {
        self.vans.iter().map(|state| state.records).sum()
    }
}

/// In form for the sheet; `room`, the same for every van, is given where a trail is lent.
pub fn in_form(sheet: &Sheet, fleet: &Fleet, room: Option<u64>) -> bool {
    let (vans, others) = fleet.vans.split_at(sheet.v());
    let spare = slips::on(slips::STATES_THAT_ARE_NO_VAN_NOT_ASKED);
    vans.iter().all(|state| state::in_form(sheet, state, room))
        && (spare || others.iter().all(|state| *state == State::zero()))
        && vans.iter().all(|state| state.level_count == vans[0].level_count)
        && (0..64).all(|x| !bit(fleet.must, x) || (x >= 1 && x + 2 <= sheet.n()))
        && apart(sheet, fleet)
        && !(slips::on(slips::CLASSES_IN_THE_FORM) && handed_in(sheet, fleet))
}

/// Some van has a ward on its route, or open, that does not admit it: no steps from fresh lead
/// there, but the form does not ask.
pub fn handed_in(sheet: &Sheet, fleet: &Fleet) -> bool {
    (0..sheet.v()).any(|van| {
        let state = &fleet.vans[van];
        let held = |x: usize| state.on_route(x) || state.sets[x] != 0;
        (1..sheet.n() - 1).any(|x| held(x) && !sheet.admits(x, van))
    })
}

/// No ward on a route is on or open in another van.
pub fn apart(sheet: &Sheet, fleet: &Fleet) -> bool {
    let paths: Vec<Vec<usize>> = fleet.vans[..sheet.v()].iter().map(|state| state.path()).collect();
    for (van, path) in paths.iter().enumerate() {
        for other in 0..sheet.v() {
            let taken = |x: &usize| paths[other].contains(x) || fleet.vans[other].sets[*x] != 0;
            if other != van && path[1..path.len() - 1].iter().any(taken) {
                return false;
            }
        }
    }
    true
}
