//! Writes docs/cut.svg anew from the model's run of case G.

use winterbeam_tests::cut_picture::svg;

fn main() {
    let root = concat!(env!("CARGO_MANIFEST_DIR"), "/..");
    let script = std::fs::read_to_string(format!("{root}/examples/case_g.ring")).expect("case G");
    std::fs::write(format!("{root}/docs/cut.svg"), svg(&script)).expect("the picture is written");
}
