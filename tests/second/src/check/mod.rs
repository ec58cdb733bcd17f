//! Demands 2 and 3 on small fleets, where every choice of one round a van can be listed.

mod alike;
mod back;
mod kept;
mod refusals;
mod settling;
mod trouble;
mod verdicts;

use crate::doors;
use crate::fleet::Fleet;
use crate::gen::{damage, edges, fleets, parts, profiles, sheets};
use crate::profile_calls;
use crate::profile_verdicts;
use crate::rng::Rng;
use crate::sheet::Sheet;
use crate::tally::Tally;
use crate::whole::triangle_broken;
pub use trouble::Trouble;

/// A sheet, a fleet in form for it, and a trail with room.
pub struct Scene {
    pub bytes: Vec<u8>,
    pub sheet: Sheet,
    /// Opening accepts the sheet, so the promises that lean on the triangle hold.
    pub opened: bool,
    pub fleet: Fleet,
    pub trail: Vec<u64>,
}

pub fn expected() -> Tally {
    let mut names: Vec<String> = vec![];
    let groups = [kept::NAMES, settling::NAMES, verdicts::NAMES, back::NAMES, alike::NAMES, refusals::NAMES];
    let met = [doors::NAMES, profile_calls::NAMES, profile_verdicts::NAMES];
    for group in groups.into_iter().chain(met) {
        names.extend(group.iter().map(|name| name.to_string()));
    }
    for number in (1..=7).chain(11..=22) {
        names.push(format!("refusal {number}"));
    }
    Tally::expecting(names)
}

/// Vans and nodes, small enough to list every choice.
fn size(rng: &mut Rng) -> (usize, usize) {
    match rng.below(8) {
        0..=2 => (1, *rng.pick(&[2, 3, 4, 4, 5, 5, 5, 6, 6, 7])),
        3..=5 => (2, *rng.pick(&[2, 3, 4, 4, 5, 5, 6])),
        _ => (3, *rng.pick(&[3, 4, 4, 5])),
    }
}

fn scene(rng: &mut Rng) -> Scene {
    let (v, n) = size(rng);
    let mut draft = sheets::plain(rng, n, v);
    let by_profile = rng.one_in(4);
    if by_profile {
        profiles::alone(rng, &mut draft);
    } else if rng.one_in(2) {
        edges::loosen(rng, &mut draft);
    }
    let sheet = draft.sheet();
    let count = *rng.pick(&[0, 0, 2, 5, 14]);
    let (mut fleet, mut trail) = fleets::reached(rng, &sheet, count);
    if by_profile || rng.one_in(3) {
        fleet = fleets::made_up(rng, &sheet);
    }
    let van = rng.below(v);
    if rng.one_in(4) {
        fleets::quiet_but(rng, &sheet, &mut fleet, van);
        fleets::put_levels(rng, &sheet, &mut fleet, &[0; 8]);
        trail.fill(0);
    }
    if by_profile {
        profiles::ease(&mut draft, &mut fleet);
    } else {
        for _ in 0..rng.below(3) {
            edges::sharpen(rng, &mut draft, van, &fleet.vans[van]);
        }
    }
    if rng.one_in(8) && n > 2 {
        damage::triangle(rng, &mut draft);
    }
    let each = 2 * fleets::most_records(&fleet) as usize + 60;
    trail = parts::join(rng, &parts::cut(&trail, v), each);
    let sheet = draft.sheet();
    Scene { bytes: draft.bytes(), opened: !triangle_broken(&sheet), sheet, fleet, trail }
}

/// All properties on case `number`.
pub fn one(seed: u64, number: u64, tally: &mut Tally) -> Result<(), Trouble> {
    let rng = &mut Rng::of(seed ^ 0x6368_6563, number);
    let scene = scene(rng);
    kept::check(rng, &scene, tally)?;
    settling::check(&scene, tally)?;
    back::check(rng, &scene, tally)?;
    alike::check(rng, &scene, tally)?;
    refusals::check(seed, number, tally)
}
