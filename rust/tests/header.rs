//! Holds the C header's numbers to those of this crate and of the library that is linked: the version, and the names of
//! the replies. No proof reads the header.

use drainage::{version, VERSION};
use std::path::Path;

fn header() -> String {
    let path = Path::new(env!("CARGO_MANIFEST_DIR")).join("../include/drainage.h");
    std::fs::read_to_string(&path).unwrap_or_else(|fault| panic!("{}: {fault}", path.display()))
}

#[test]
fn header_library_and_crate_are_of_one_version() {
    assert_eq!(version(), VERSION);
    let header = header();
    let defined: Vec<&str> = header
        .lines()
        .filter_map(|line| line.strip_prefix("#define DRAINAGE_VERSION "))
        .collect();
    assert_eq!(defined, [VERSION.to_string()]);
}

/// The table of paper 01, "Replies and what remains"; 11 is the program's alone.
const REPLIES: [(&str, u32); 11] = [
    ("DRAINAGE_DONE", 0),
    ("DRAINAGE_SHAPE", 1),
    ("DRAINAGE_LENGTH", 2),
    ("DRAINAGE_CODE", 3),
    ("DRAINAGE_LOOP", 4),
    ("DRAINAGE_COUNT", 5),
    ("DRAINAGE_PLACE", 6),
    ("DRAINAGE_NEW_CODE", 7),
    ("DRAINAGE_RECORD", 8),
    ("DRAINAGE_LAYOUT", 9),
    ("DRAINAGE_INCOMING", 10),
];

#[test]
fn the_header_names_every_reply_by_its_number() {
    let header = header();
    let named: Vec<(&str, u32)> = header
        .lines()
        .filter_map(|line| {
            let (name, rest) = line.trim_start().split_once(" = ")?;
            let number = rest.split([',', ' ']).next()?.parse().ok()?;
            name.starts_with("DRAINAGE_").then_some((name, number))
        })
        .collect();
    assert_eq!(named, REPLIES);
}
