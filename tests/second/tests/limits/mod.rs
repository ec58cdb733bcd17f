//! What the readings of a fleet share: limits where every van is of class 1 and there is no
//! profile, so that neither decides.

/// The section's text from capacity and metre limit of each van: `2 60, 1 60` gives `7 2 60 1 1 60 1 0`.
pub fn of_class_1(vans: &str) -> String {
    let vans: Vec<String> = vans.split(',').map(|pair| format!("{} 1", pair.trim())).collect();
    format!("{} {} 0", 3 * vans.len() + 1, vans.join(" "))
}
