//! 01's examples, and those of the profile, as cargo tests.

use second::{papers, profile_papers};

#[test]
fn examples_of_the_scope() {
    for (name, holds) in papers::table() {
        assert!(holds, "{name}");
    }
}

#[test]
fn examples_that_are_run_only() {
    for (name, holds) in papers::run_only() {
        assert!(holds, "{name}");
    }
}

#[test]
fn examples_of_the_profile() {
    for (name, holds) in profile_papers::table() {
        assert!(holds, "{name}");
    }
}
