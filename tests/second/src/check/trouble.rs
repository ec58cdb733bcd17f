//! A promise that did not hold, with all that is needed to see it again.

use std::fmt;

use super::Scene;
use crate::fleet::Fleet;
use crate::state::State;
use crate::text::from_bytes;

pub struct Trouble {
    pub property: String,
    pub sheet: Vec<u8>,
    pub fleet: Box<Fleet>,
    pub note: String,
}

impl Trouble {
    pub fn of(property: &str, scene: &Scene, fleet: &Fleet, note: String) -> Trouble {
        Trouble {
            property: property.to_string(),
            sheet: scene.bytes.clone(),
            fleet: Box::new(fleet.clone()),
            note,
        }
    }
}

/// Ok if it holds.
pub fn hold(
    holds: bool,
    property: &str,
    scene: &Scene,
    fleet: &Fleet,
    note: impl FnOnce() -> String,
) -> Result<(), Trouble> {
    if holds {
        return Ok(());
    }
    Err(Trouble::of(property, scene, fleet, note()))
}

impl fmt::Display for Trouble {
    fn fmt(&self, f: &mut fmt::Formatter) -> fmt::Result {
        writeln!(f, "does not hold: {}", self.property)?;
        match from_bytes(&self.sheet, false) {
            Ok(text) => write!(f, "sheet: {text}")?,
            Err(why) => writeln!(f, "sheet: {why}: {:?}", self.sheet)?,
        }
        write!(f, "{}", describe_fleet(&self.fleet))?;
        write!(f, "{}", self.note)
    }
}

/// A line for each state with anything in it.
pub fn describe_fleet(fleet: &Fleet) -> String {
    let mut text = format!("must {:b}\n", fleet.must);
    for (van, state) in fleet.vans.iter().enumerate() {
        if *state != State::zero() {
            text += &format!("van {van}: {}\n", describe(state));
        }
    }
    text
}

fn describe(state: &State) -> String {
    let stops = (state.stops as usize).min(64);
    let used = (state.level_count as usize).min(64);
    let sets: Vec<String> =
        (0..64).filter(|&x| state.sets[x] != 0).map(|x| format!("{x}:{:b}", state.sets[x])).collect();
    format!(
        "route {:?} sets [{}] marks {:b} levels {:?} records {}",
        &state.route[..stops],
        sets.join(" "),
        state.marks,
        &state.levels[..used],
        state.records
    )
}
