//! The sample sheets give the listings stored beside them.

use second::face::open;
use second::listing::listing;
use second::text::to_bytes;

fn stored(name: &str) -> String {
    let path = format!("{}/../../samples/{name}", env!("CARGO_MANIFEST_DIR"));
    std::fs::read_to_string(path).unwrap()
}

#[test]
fn samples_give_their_listings() {
    for name in ["paper", "ward", "full", "morning", "cages", "theatre"] {
        let bytes = to_bytes(&stored(&format!("{name}.txt"))).unwrap();
        assert_eq!(listing(&bytes), stored(&format!("{name}.listing")), "{name}");
    }
}

#[test]
fn the_scope_sheet_is_the_paper_sample() {
    assert_eq!(to_bytes(&stored("paper.txt")).unwrap(), second::papers::bytes_with(&[]));
}

/// As its remarks say: with the 2 cages that were meant, nothing is left to refuse.
#[test]
fn the_cages_are_refused_for_the_slip_alone() {
    let text = stored("cages.txt");
    assert_eq!(open(&to_bytes(&text).unwrap()).0, 6);
    assert_eq!(open(&to_bytes(&text.replacen("2 1 0 20", "2 1 0 2", 1)).unwrap()).0, 0);
}

/// As its remarks say: the class alone keeps the maternity ward out of van 1.
#[test]
fn the_morning_refuses_a_placing_for_the_class_alone() {
    let text = stored("morning.txt");
    let fifth = |text: &str| listing(&to_bytes(text).unwrap()).lines().nth(4).map(String::from).unwrap();
    assert!(fifth(&text).starts_with("step 5 answer 15 "));
    assert!(fifth(&text.replacen("0 3600 120 6", "0 3600 120 7", 1)).starts_with("step 5 answer 0 "));
}

/// As its remarks say: the profile alone strikes at step 3 and at step 8, makes step 6 dead and refuses step 9.
#[test]
fn the_theatre_hangs_on_the_profile_alone() {
    let text = stored("theatre.txt");
    let lines = |text: &str| -> Vec<String> {
        let listed = listing(&to_bytes(text).unwrap());
        [3, 6, 8, 9].map(|step| listed.lines().nth(step - 1).map(String::from).unwrap()).to_vec()
    };
    let shows =
        |lines: &[String], ends: [&str; 4]| lines.iter().zip(ends).all(|(line, end)| line.contains(end));
    assert!(shows(&lines(&text), ["rounds 1 alive 1", "alive 0", "rounds 1 alive 1", "answer 15"]));
    let without = text.replacen("\n  1 |", "\n  0 |", 1);
    assert!(shows(&lines(&without), ["rounds 0 alive 1", "alive 1", "rounds 0 alive 1", "answer 0"]));
}
