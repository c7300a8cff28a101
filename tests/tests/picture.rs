//! docs/places.svg is what the definitions of the step table give, and these are all twenty rows of the page. docs/cut.svg is what
//! the model's run of case G gives, and that is the page's case G.

use winterbeam_tests::answer::Answer;
use winterbeam_tests::cut_picture::{self, scene};
use winterbeam_tests::picture::{rows, svg};

/// The text of a file of the tree.
fn read(file: &str) -> String {
    let path = format!(concat!(env!("CARGO_MANIFEST_DIR"), "/../{}"), file);
    std::fs::read_to_string(path).expect(file)
}

const TABLE: &str = "crates/rules/specs/Table.antt";
const CASE_G: &str = "examples/case_g.ring";

#[test]
fn the_picture_is_the_table() {
    assert!(
        read("docs/places.svg") == svg(&read(TABLE)),
        "docs/places.svg is old: run `cargo run --bin places` in tests/"
    );
}

#[test]
fn the_picture_is_the_cut() {
    assert!(
        read("docs/cut.svg") == cut_picture::svg(&read(CASE_G)),
        "docs/cut.svg is old: run `cargo run --bin cut` in tests/"
    );
}

/// Items a to e are 101 to 105: mark 2, Head 2, Tail 6, queue c d e, and a and b gone with the two takes.
#[test]
fn the_cut_is_the_pages() {
    let scene = scene(&read(CASE_G));
    assert_eq!(scene.answer, Answer::Cut(2, 2, 6, 0, 3));
    assert_eq!(scene.confirmed, [(0, 101), (1, 102), (2, 103), (3, 104), (5, 105)]);
    assert_eq!(scene.after.queue(), [(2, 103), (3, 104), (5, 105)]);
    assert_eq!([0, 1, 2].map(|t| scene.gone_with(t)), [None, Some(101), Some(102)]);
    assert_eq!(scene.after.running, scene.after.kept);
}

#[test]
fn the_ways_are_the_pages() {
    let mut ways: Vec<String> =
        rows(&read(TABLE)).iter().map(|r| format!("{} {}", r.place, r.to.join(" "))).collect();
    ways.sort();
    let mut page = vec![
        "P1 P7 P2",
        "P2 P4 P3 P8",
        "P3 P4 P8",
        "P4 P5 P8",
        "P5 P6",
        "P6 idle",
        "P7 P10",
        "P8 P9 P1",
        "P9 P7",
        "P10 idle",
        "T1 T2",
        "T2 T6 T5 T3 T4",
        "T3 T8 T2",
        "T4 T6 T2",
        "T5 T6 T2",
        "T6 T7 T1",
        "T7 T8",
        "T8 T9",
        "T9 T10",
        "T10 idle",
    ];
    page.sort();
    assert_eq!(ways, page);
}
