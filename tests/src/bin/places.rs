//! Writes docs/places.svg anew from the definitions of the step table.

use winterbeam_tests::picture::svg;

fn main() {
    let root = concat!(env!("CARGO_MANIFEST_DIR"), "/..");
    let table = std::fs::read_to_string(format!("{root}/crates/rules/specs/Table.antt"))
        .expect("the table");
    std::fs::write(format!("{root}/docs/places.svg"), svg(&table)).expect("the picture is written");
}
