//! What is asked of a sheet as a whole, once every word of it is in order: refusals 4, 6, 7 and 5.

use crate::sheet::{Job, Sheet};
use crate::slips;

/// Refusal 4: two jobs of one kind at a node, where both ends of a transfer count.
pub fn doubled(jobs: &[Job]) -> bool {
    for (i, one) in jobs.iter().enumerate() {
        for other in &jobs[i + 1..] {
            if one.kind != other.kind {
                continue;
            }
            let shared = if one.kind == 3 {
                one.a == other.a || one.a == other.b || one.b == other.a || one.b == other.b
            } else {
                one.a == other.a
            };
            if shared {
                return true;
            }
        }
    }
    false
}

/// 6, then 7, but for what one of these slips leaves out.
pub fn judge(sheet: &Sheet, without: [u64; 2]) -> Result<(), u64> {
    let six = !slips::on(without[0]) && never_rides(sheet);
    let seven = !slips::on(without[1]) && shuts_out(sheet);
    match (six, seven) {
        (true, true) if slips::on(slips::SEVEN_BEFORE_6) => Err(7),
        (true, _) => Err(6),
        (_, true) => Err(7),
        _ => Ok(()),
    }
}

/// Refusal 6: some job, taken alone, is above what any van can take.
pub fn never_rides(sheet: &Sheet) -> bool {
    let most = sheet.largest_capacity();
    if slips::on(slips::LOADS_TOGETHER_FOR_6) {
        return sheet.jobs.iter().map(|job| job.load).sum::<i64>() > most;
    }
    let just_full = slips::on(slips::AT_LEAST_FOR_ABOVE_IN_6);
    sheet.jobs.iter().any(|job| job.load > most || (just_full && job.load == most))
}

/// Refusal 7: the start or the end does not admit some van.
pub fn shuts_out(sheet: &Sheet) -> bool {
    let last = sheet.n() - 1;
    let vans = if slips::on(slips::SEVEN_OF_THE_FIRST_VAN_ONLY) { 1 } else { sheet.v() };
    let mut nodes = vec![0, last];
    if slips::on(slips::SEVEN_OF_THE_START_ONLY) {
        nodes = vec![0];
    }
    if slips::on(slips::SEVEN_OF_WARDS_TOO) {
        nodes = (0..=last).collect();
    }
    nodes.iter().any(|&node| (0..vans).any(|van| !sheet.admits(node, van)))
}

/// Refusal 5: some three different nodes where the way round is shorter than the way itself.
pub fn triangle_broken(sheet: &Sheet) -> bool {
    let n = sheet.n();
    for i in 0..n {
        for j in 0..n {
            for k in 0..n {
                if i == j || j == k || i == k {
                    continue;
                }
                if sheet.seconds(i, k) > sheet.seconds(i, j) + sheet.seconds(j, k) {
                    return true;
                }
                if sheet.metres(i, k) > sheet.metres(i, j) + sheet.metres(j, k) {
                    return true;
                }
            }
        }
    }
    false
}
