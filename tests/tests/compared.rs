//! crates/rules/proofs/Compared.antt is what the model gives, and its runs have every answer.

use winterbeam_tests::compared::file;

/// Every answer, and every refusal that a run from a fresh ring meets but the one at the run limit.
const WORDS: [&str; 26] = [
    "Refused 2",
    "Refused 3",
    "Refused 4",
    "Refused 5",
    "Refused 6",
    "Begun",
    "Drew",
    "Looked",
    "SawHead",
    "Landed",
    "Missed",
    "Asked",
    "Waiting",
    "Ok (by",
    "Closed (by",
    "SetClosed",
    "Took",
    "Flagged",
    "Passed",
    "SawTail",
    "Lifted",
    "Copied",
    "Item (by",
    "Empty",
    "Written",
    "Cut (found",
];

#[test]
fn the_proof_file_is_what_the_model_gives() {
    let path = concat!(env!("CARGO_MANIFEST_DIR"), "/../crates/rules/proofs/Compared.antt");
    let there = std::fs::read_to_string(path).expect(path);
    assert!(
        there == file(),
        "crates/rules/proofs/Compared.antt is old: run `cargo run --bin compared` in tests/"
    );
    let runs = &there[there.find("runs =").expect("the runs")..];
    for word in WORDS {
        assert!(runs.contains(word), "no run has {word}");
    }
}
