//! The questions that are no steps: opening, open places, verdict, all of the whole fleet.

use crate::fleet::{in_form, Fleet};
use crate::sheet::{self, Sheet};
use crate::slips;
use crate::verdict::alive;
use crate::whole;

/// The refusal or 0, and the fleet beside it.
pub fn open(bytes: &[u8]) -> (u64, Fleet) {
    match opened(bytes) {
        Ok(sheet) => (0, Fleet::fresh(&sheet)),
        Err(number) => (number, Fleet::zero()),
    }
}

fn opened(bytes: &[u8]) -> Result<Sheet, u64> {
    let sheet = sheet::read_unless([slips::SIX_AFTER_5, slips::SEVEN_AFTER_5], bytes)?;
    if whole::triangle_broken(&sheet) {
        return Err(5);
    }
    // Only what a slip left for later can still be met here.
    whole::judge(&sheet, [slips::NONE; 2])?;
    Ok(sheet)
}

fn asked(bytes: &[u8], fleet: &Fleet) -> Result<Sheet, u64> {
    let left_out = [slips::ONLY_OPENING_ASKS_6, slips::A_QUESTION_DOES_NOT_ASK_7];
    let sheet = sheet::read_unless(left_out, bytes)?;
    if !in_form(&sheet, fleet, None) {
        return Err(19);
    }
    Ok(sheet)
}

pub fn open_places(bytes: &[u8], fleet: &Fleet) -> (u64, u64) {
    match asked(bytes, fleet) {
        Ok(_) => (0, fleet.open_places()),
        Err(number) => (number, 0),
    }
}

/// 1 alive, 0 dead.
pub fn verdict(bytes: &[u8], fleet: &Fleet) -> (u64, u64) {
    match asked(bytes, fleet) {
        Ok(sheet) => (0, u64::from(alive(&sheet, fleet))),
        Err(number) => (number, 0),
    }
}
