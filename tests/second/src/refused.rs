//! What a step or a question would meet if 6 or 7 did not refuse its sheet.

use crate::fleet::in_form;
use crate::probe::{Case, STEP};
use crate::sheet::read_unjudged;
use crate::step::step_on;
use crate::tally::Tally;
use crate::trail::room;

/// Names for what is met.
pub struct Names {
    pub step_alone: &'static str,
    pub step_form: &'static str,
    pub asked_alone: &'static str,
    pub asked_form: &'static str,
}

impl Names {
    pub fn all(&self) -> [&'static str; 4] {
        [self.step_alone, self.step_form, self.asked_alone, self.asked_form]
    }
}

/// Of a call that 6 or 7 refuses.
pub fn note_call(tally: &mut Tally, case: &Case, names: &Names) {
    let Ok(sheet) = read_unjudged(&case.bytes) else { return };
    let of_step = case.question == STEP;
    let room = of_step.then(|| room(case.trail.len(), sheet.v()));
    let formed = in_form(&sheet, &case.fleet, room);
    match (of_step, formed) {
        (true, false) => tally.add(names.step_form),
        (false, false) => tally.add(names.asked_form),
        (false, true) => tally.add(names.asked_alone),
        (true, true) => {
            if step_on(&sheet, &case.fleet, &case.trail, case.words).answer == 0 {
                tally.add(names.step_alone);
            }
        }
    }
}
