//! The text tool: 01's own form there and back, and what it says of text it cannot read.

use second::papers::{bytes_with, SHEET};
use second::text::{from_bytes, to_bytes};

#[test]
fn prints_the_sheet_as_01_does() {
    let squeezed: Vec<&str> = SHEET.split_whitespace().collect();
    assert_eq!(from_bytes(&bytes_with(&[]), false).unwrap(), squeezed.join(" ") + "\n");
}

#[test]
fn there_and_back_for_any_words() {
    let sheets: [&[u32]; 7] = [
        &[],
        &[4],
        &[4, 1, 1, 1, 0, 64, 5],
        &[4, 1, 1, 1, 0, 0, 0, 0, 0, 0, 7, 7],
        &[u32::MAX, 1],
        &[5, 1, 1, 1, 1, 2],
        &[7, 1, 1, 1],
    ];
    for words in sheets {
        let bytes: Vec<u8> = words.iter().flat_map(|w| w.to_le_bytes()).collect();
        for long in [false, true] {
            assert_eq!(to_bytes(&from_bytes(&bytes, long).unwrap()).unwrap(), bytes);
        }
    }
}

/// One van's limits stand as 01 prints them; those of more stand van by van, and the profile's number
/// stands last.
#[test]
fn limits_of_a_fleet_stand_van_by_van() {
    let fleet =
        "10, 10 1800 2, 6 1200 1, 8 900 4, 1 | 2, 0 0 0 7, 0 9 0 7 | 0 | 4, 0 1 1 0 | 4, 0 0 0 0 | 0\n";
    let bytes = to_bytes(fleet).unwrap();
    assert_eq!(from_bytes(&bytes, false).unwrap(), fleet);
    let long = from_bytes(&bytes, true).unwrap();
    assert!(long.starts_with("10,\n  10 1800 2,\n  6 1200 1,\n  8 900 4,\n  1 |\n2,\n  0 0 0 7"), "{long}");
    assert_eq!(to_bytes(&long).unwrap(), bytes);
}

#[test]
fn says_what_it_cannot_read() {
    for (text, why) in [
        ("2 x", "line 1, column 3: 'x' is not a number"),
        (
            "2 2\n 60 | 4294967296",
            "line 2, column 7: '4294967296' does not fit a 32-bit word (at most 4294967295)",
        ),
        ("-1", "line 1, column 1: '-1' is below 0, and a sheet has no negative numbers"),
        ("1.5", "line 1, column 1: '1.5' is not a number"),
        ("1;2", "line 1, column 1: '1;2' is not a number"),
    ] {
        assert_eq!(to_bytes(text).unwrap_err(), why);
    }
    assert!(from_bytes(&[1, 2, 3], false).unwrap_err().contains("3 bytes"));
}

#[test]
fn remarks_and_separators_are_free() {
    let plain = to_bytes("2 2 60").unwrap();
    assert_eq!(to_bytes("2,2|60 # the limits, 3\n# more").unwrap(), plain);
}
