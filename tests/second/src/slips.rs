//! Wrong variants on purpose. The slips that 01 names, those that a fleet, a shut door, loads that
//! can never ride, van classes and the profile invite, and a few more, can be switched on in `listing`, `probe`
//! and `check` by SECOND_BREAK, so that one can see the comparison and the checks fail. Nothing else
//! reads the switch: the side that judges is never broken.

use std::sync::atomic::{AtomicU64, Ordering};

pub const ONE_HALF_ONLY: u64 = 1;
pub const L_UNSIGNED: u64 = 2;
pub const SAME_LEG_NO_SUPPORT: u64 = 3;
pub const PLACE_BY_PLACE: u64 = 4;
pub const MARK_DROPPED_WHEN_PLACED: u64 = 5;
pub const SPLIT_LEG_NOT_COUNTED: u64 = 6;
pub const HALVES_MERGED_WHEN_UNDONE: u64 = 7;
pub const FIVE_ON_A_STEP: u64 = 8;
pub const PLACING_FORGETS_ONE_VAN: u64 = 9;
pub const A_DEAD_VAN_LEAVES_THE_FLEET_ALIVE: u64 = 10;
pub const MUST_IGNORED_IN_THE_VERDICT: u64 = 11;
pub const LEVEL_IN_THE_NAMED_VAN_ONLY: u64 = 12;
pub const BACK_IN_THE_FIRST_VAN_ONLY: u64 = 13;
pub const RULE_BETWEEN_VANS_AFTER_EACH_RECORD: u64 = 14;
pub const LIMITS_OF_THE_FIRST_VAN: u64 = 15;
pub const RULE_BETWEEN_VANS_NOT_ASKED: u64 = 16;
pub const KIND_4_IN_ANY_TRAIL: u64 = 17;
pub const TWENTY_TWO_AFTER_ROOM: u64 = 18;
pub const TWENTY_ONE_AFTER_12: u64 = 19;
pub const TWENTY_ONE_ON_ANY_STEP: u64 = 20;
pub const OWED_ONLY_WHERE_OPEN: u64 = 21;
pub const MUST_ON_THE_ROUTE_REFUSED: u64 = 22;
pub const MUST_OWES: u64 = 23;
pub const ROOM_OF_THE_NAMED_VAN_ONLY: u64 = 24;
pub const PARTS_OF_WHOLE_RECORDS: u64 = 25;
pub const A_RECORD_IN_EVERY_OTHER_VAN: u64 = 26;
pub const STATES_THAT_ARE_NO_VAN_NOT_ASKED: u64 = 27;
pub const L_TAKES_SERVICE_OFF_THE_NEXT_ONLY: u64 = 28;
pub const WINDOW_ASKS_THE_START_ALONE: u64 = 29;
pub const LAST_MOMENT_CUT_AT_0: u64 = 30;
pub const FIRST_STOP_NOT_ASKED: u64 = 31;
pub const END_WITHOUT_ITS_SERVICE: u64 = 32;
pub const SIX_BEFORE_4: u64 = 33;
pub const SIX_AFTER_5: u64 = 34;
pub const CAPACITY_OF_THE_FIRST_VAN_FOR_6: u64 = 35;
pub const SMALLEST_CAPACITY_FOR_6: u64 = 36;
pub const AT_LEAST_FOR_ABOVE_IN_6: u64 = 37;
pub const ONLY_OPENING_ASKS_6: u64 = 38;
pub const SECTION_DOES_NOT_ASK_6: u64 = 39;
pub const LOADS_TOGETHER_FOR_6: u64 = 40;
pub const CAPACITIES_TOGETHER_FOR_6: u64 = 41;
pub const CLASS_SET_0_TAKEN: u64 = 42;
pub const CLASS_SET_256_TAKEN: u64 = 43;
pub const TWO_BITS_TAKEN: u64 = 44;
pub const SEVEN_BEFORE_6: u64 = 45;
pub const SEVEN_AFTER_5: u64 = 46;
pub const SEVEN_OF_THE_FIRST_VAN_ONLY: u64 = 47;
pub const SEVEN_OF_THE_START_ONLY: u64 = 48;
pub const SECTION_DOES_NOT_ASK_7: u64 = 49;
pub const A_STEP_DOES_NOT_ASK_7: u64 = 50;
pub const FRESH_OPENS_WHAT_THE_SET_LACKS: u64 = 51;
pub const CLASSES_FROM_THE_SERVICE: u64 = 52;
pub const FRESH_READS_THE_BIT_OF_THE_FIRST_VAN: u64 = 53;
pub const SEVEN_OF_WARDS_TOO: u64 = 54;
pub const A_QUESTION_DOES_NOT_ASK_7: u64 = 55;
pub const LIMITS_SHORT_BEFORE_THEIR_COUNT: u64 = 56;
pub const CLASSES_IN_THE_FORM: u64 = 57;
pub const SETTLING_READS_CLASSES: u64 = 58;
pub const VERDICT_READS_CLASSES: u64 = 59;
pub const REQUIRING_READS_CLASSES: u64 = 60;
pub const PROFILE_FROM_THE_LAST_VANS_CLASS: u64 = 61;
pub const PROFILE_2_TAKEN: u64 = 62;
pub const ANY_PROFILE_TAKEN: u64 = 63;
pub const PROFILE_READ_AS_A_BYTE: u64 = 64;
pub const LIMITS_WITHOUT_A_PROFILE_TAKEN: u64 = 65;
pub const SOILED_STOPS_STRICTLY_BEFORE: u64 = 66;
pub const CLEAN_STOP_AT_THE_PLACE_TOO: u64 = 67;
pub const A_STOP_AGAINST_ITSELF_IN_SETTLING: u64 = 68;
pub const A_STOP_AGAINST_ITSELF_IN_THE_VERDICT: u64 = 69;
pub const PROFILE_ASKED_OF_EVERY_SHEET: u64 = 70;
pub const VERDICT_WITHOUT_THE_PROFILE: u64 = 71;
pub const SETTLING_WITHOUT_THE_PROFILE: u64 = 72;
pub const A_TRANSFERS_SECOND_NODE_IS_CLEAN: u64 = 73;
pub const A_TRANSFERS_FIRST_NODE_IS_SOILED: u64 = 74;
pub const FIRST_JOB_OF_A_NODE_ONLY: u64 = 75;
pub const SOILED_BEFORE_CLEAN: u64 = 76;
pub const PROFILE_BETWEEN_NEIGHBOURS_ONLY: u64 = 77;
pub const PROFILE_OF_THE_FIRST_VAN_ONLY: u64 = 78;
pub const SOILED_NODES_NOT_ASKED: u64 = 79;
pub const CLEAN_NODES_NOT_ASKED: u64 = 80;
pub const A_STOP_WITH_BOTH_IS_NEITHER: u64 = 81;
pub const LAST: u64 = 81;
/// No number that SECOND_BREAK names: what hangs on it is never left out.
pub const NONE: u64 = u64::MAX;

static SLIP: AtomicU64 = AtomicU64::new(0);

pub fn switch_from_environment() {
    if let Ok(text) = std::env::var("SECOND_BREAK") {
        SLIP.store(text.parse().unwrap_or(0), Ordering::Relaxed);
    }
}

pub fn on(which: u64) -> bool {
    SLIP.load(Ordering::Relaxed) == which
}
