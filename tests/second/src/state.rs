//! The state of one van, held as 196 plain numbers so that any broken one can be written down.

use crate::sheet::Sheet;

pub const WORDS: usize = 196;

#[derive(Clone, PartialEq, Eq, Debug)]
pub struct State {
    pub route: [u64; 64],
    pub stops: u64,
    pub sets: [u64; 64],
    pub marks: u64,
    pub levels: [u64; 64],
    pub level_count: u64,
    pub records: u64,
}

impl State {
    pub fn zero() -> State {
        State {
            route: [0; 64],
            stops: 0,
            sets: [0; 64],
            marks: 0,
            levels: [0; 64],
            level_count: 0,
            records: 0,
        }
    }

    /// Route 0, n−1, and every ward open: fresh, where every ward admits the van.
    pub fn all_open(n: usize) -> State {
        let mut state = State::zero();
        state.route[1] = n as u64 - 1;
        state.stops = 2;
        for x in 1..n - 1 {
            state.sets[x] = 1;
        }
        state
    }

    pub fn to_words(&self) -> Vec<u64> {
        let mut out = Vec::with_capacity(WORDS);
        out.extend(self.route);
        out.push(self.stops);
        out.extend(self.sets);
        out.push(self.marks);
        out.extend(self.levels);
        out.push(self.level_count);
        out.push(self.records);
        out
    }

    pub fn from_words(w: &[u64]) -> State {
        let part = |from: usize| -> [u64; 64] { w[from..from + 64].try_into().expect("196 words") };
        State {
            route: part(0),
            stops: w[64],
            sets: part(65),
            marks: w[129],
            levels: part(130),
            level_count: w[194],
            records: w[195],
        }
    }

    /// The stops in order; only of a state in form.
    pub fn path(&self) -> Vec<usize> {
        self.route[..self.stops as usize].iter().map(|&v| v as usize).collect()
    }

    pub fn put_path(&mut self, path: &[usize]) {
        self.route = [0; 64];
        for (i, &v) in path.iter().enumerate() {
            self.route[i] = v as u64;
        }
        self.stops = path.len() as u64;
    }

    pub fn on_route(&self, x: usize) -> bool {
        self.path().contains(&x)
    }

    pub fn is_open(&self, x: usize, leg: usize) -> bool {
        bit(self.sets[x], leg)
    }

    pub fn is_marked(&self, x: usize) -> bool {
        bit(self.marks, x)
    }

    /// Open places in all.
    pub fn open_places(&self) -> u64 {
        let mut sum = 0;
        for set in self.sets.iter().filter(|&&set| set != 0) {
            for leg in 0..64 {
                if bit(*set, leg) {
                    sum += 1;
                }
            }
        }
        sum
    }
}

pub fn bit(set: u64, place: usize) -> bool {
    set >> place & 1 == 1
}

/// In form for the sheet; `room` is given where a trail is lent.
pub fn in_form(sheet: &Sheet, state: &State, room: Option<u64>) -> bool {
    let n = sheet.n();
    route_in_form(n, state)
        && sets_in_form(n, state)
        && (0..64).all(|x| !state.is_marked(x) || (x >= 1 && x + 2 <= n))
        && levels_in_form(state)
        && room.is_none_or(|r| state.records <= r)
}

fn route_in_form(n: usize, state: &State) -> bool {
    if state.stops < 2 || state.stops > n as u64 {
        return false;
    }
    let stops = state.stops as usize;
    if state.route[..stops].iter().any(|&v| v >= n as u64) || state.route[stops..].iter().any(|&v| v != 0) {
        return false;
    }
    for i in 0..stops {
        for j in 0..i {
            if state.route[i] == state.route[j] {
                return false;
            }
        }
    }
    state.route[0] == 0 && state.route[stops - 1] == n as u64 - 1
}

fn sets_in_form(n: usize, state: &State) -> bool {
    let path = state.path();
    let legs = &path[..path.len() - 1];
    for x in (0..64).filter(|&x| state.sets[x] != 0) {
        let may_be_open = x >= 1 && x + 2 <= n && !path.contains(&x);
        for leg in 0..64 {
            if state.is_open(x, leg) && !(may_be_open && legs.contains(&leg)) {
                return false;
            }
        }
    }
    true
}

fn levels_in_form(state: &State) -> bool {
    if state.level_count > 64 {
        return false;
    }
    let used = state.level_count as usize;
    for i in 0..64 {
        if i >= used && state.levels[i] != 0 {
            return false;
        }
        if i < used && state.levels[i] > state.records {
            return false;
        }
        if i + 1 < used && state.levels[i] > state.levels[i + 1] {
            return false;
        }
    }
    true
}
