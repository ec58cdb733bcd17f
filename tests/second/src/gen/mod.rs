//! Random sheets, fleets, trails and steps. The makers use the second program's own model only
//! to steer towards interesting cases, never to decide what is right.

pub mod back;
pub mod classes;
pub mod damage;
pub mod doors;
pub mod draft;
pub mod edges;
pub mod fleets;
pub mod full;
pub mod loads;
pub mod parts;
pub mod probes;
pub mod profiles;
pub mod refused;
pub mod sheets;
pub mod spoil;
pub mod states;
pub mod steps;
pub mod tables;
pub mod trails;
pub mod unadmitted;
