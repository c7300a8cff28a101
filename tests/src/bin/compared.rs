//! Prints crates/rules/proofs/Compared.antt.

fn main() {
    print!("{}", winterbeam_tests::compared::file());
}
