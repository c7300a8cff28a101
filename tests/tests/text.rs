//! `ringrun`: the page's run, what a line may look like, refusals, and the end.

use winterbeam_tests::text::ringrun;

fn prints(input: &str, output: &str) {
    let printed = String::from_utf8(ringrun(input.as_bytes())).unwrap();
    assert_eq!(printed, output, "for the input {input:?}");
}

/// Plays lines on a ring of 4, 2, 16; numbers the lines from 2.
fn after_ring(lines: &str, output: &str) {
    prints(&format!("ring 4 2 16\n{lines}"), output);
}

const PUT: &str = "put 0 711\ngo 0\ngo 0\ngo 0\ngo 0\nback cell 0\ngo 0\n";
const TAKE: &str = "take 1\ngo 1\ngo 1\ngo 1\n";

#[test]
fn the_pages_run() {
    let input = format!("ring 4 2 16\n{PUT}{TAKE}cut\n");
    let output = "7 ok 0 711\n12 cut 0 0 1 0 1 711\nend 12\n";
    prints(&input, output);
    // The last newline may be missing.
    prints(input.trim_end(), output);
}

#[test]
fn case_b_and_c_as_text() {
    let b = format!("{PUT}{TAKE}go 1\ngo 1\nback copy 1\ncut\n");
    after_ring(&b, "7 ok 0 711\n15 cut 1 1 1 0 0\nend 15\n");
    let c = format!("{PUT}{TAKE}back cell 0\ncut\n");
    after_ring(&c, "7 ok 0 711\n13 cut 1 1 1 0 0\nend 13\n");
}

#[test]
fn item_and_empty() {
    let item = format!("{PUT}{TAKE}go 1\ngo 1\nback copy 1\ngo 1\n");
    after_ring(&item, "7 ok 0 711\n15 item 1 711\nend 15\n");
    let go = "go 1\n".repeat(7);
    let empty = format!("take 1\n{go}go 1\nback copy 1\ngo 1\n");
    after_ring(&empty, "11 empty 1\nend 11\n");
}

#[test]
fn closed() {
    let second = "put 0 6\ngo 0\ngo 0\ngo 0\ngo 0\ngo 0\nback tail\ngo 0\ncut";
    let input = format!("ring 1 1 16\n{PUT}{second}");
    prints(&input, "7 ok 0 711\n15 closed 0\n16 cut 0 0 1 1 1 711\nend 16\n");
}

#[test]
fn a_cut_lists_its_items_in_order() {
    let mut input = "ring 3 1 1\n".to_string();
    for (j, item) in [(0, 4294967295u32), (1, 1), (2, 1)] {
        input += &format!("put 0 {item}\ngo 0\ngo 0\ngo 0\ngo 0\nback cell {j}\ngo 0\n");
    }
    input += "cut\n";
    let output =
        "7 ok 0 4294967295\n14 ok 0 1\n21 ok 0 1\n22 cut 0 0 3 0 3 4294967295 1 1\nend 22\n";
    prints(&input, output);
}

#[test]
fn a_refused_first_line_reads_no_further() {
    let not_understood = [
        "",
        "\n",
        "cut",
        "ring",
        "ring 4 2",
        "ring 4 2 16 1",
        "ring 4 2 4294967296",
        "ring 04 2 1",
        "ring 4 2 00",
        "ring 65 2 016",
        " ring 4 2 16",
        "ring 4 2 16 ",
        "ring  4 2 16",
        "ring 4 2 16\r",
        "Ring 4 2 16",
        "ring 4 2 -1",
        "ring 4 2 +1",
        "ring\t4 2 16",
        "ring 4 2 16\0",
        "ring 4 2 1é",
    ];
    for line in not_understood {
        prints(line, "refused 1 9\nend 0\n");
        prints(&format!("{line}\nring 4 2 16\ncut\n"), "refused 1 9\nend 0\n");
    }
    for line in [
        "ring 0 2 16",
        "ring 65 2 16",
        "ring 4 0 16",
        "ring 4 9 16",
        "ring 4 2 0",
        "ring 4 2 256",
        "ring 4294967295 4294967295 4294967295",
    ] {
        prints(&format!("{line}\ncut\n"), "refused 1 1\nend 0\n");
    }
    for line in ["ring 1 1 1", "ring 64 8 255"] {
        prints(&format!("{line}\ncut\n"), "1 cut 0 0 0 0 0\nend 1\n");
    }
}

#[test]
fn lines_not_understood() {
    let lines = [
        "",
        " ",
        "cut ",
        " cut",
        "cut 1",
        "Cut",
        "cut\r",
        "cut\t",
        "put 0",
        "put 0 1 2",
        "put 0  1",
        "put 00 1",
        "put 9 00",
        "put 0 01",
        "put 0 4294967296",
        "put 0 99999999999999999999",
        "put 0 -1",
        "put 0 +1",
        "put 0 0x1",
        "put 0 1_000",
        "put 0 ",
        "take",
        "take 0 0",
        "take x",
        "go",
        "go 0 0",
        "back",
        "back cell",
        "back copy",
        "back cell 0 0",
        "back tail 0",
        "back none",
        "back Tail",
        "ring 4 2 16",
        "end",
        "#",
        "go 0;",
        "go\u{a0}0",
        "\u{661}",
    ];
    for line in lines {
        after_ring(&format!("{line}\ncut\n"), "refused 2 9\n1 cut 0 0 0 0 0\nend 1\n");
    }
    let bytes = ringrun(b"ring 1 1 1\n\xff\xfe\ngo \xff\ncut\x00");
    assert_eq!(bytes, b"refused 2 9\nrefused 3 9\nrefused 4 9\nend 0\n");
}

#[test]
fn at_most_40_bytes_a_line() {
    // No line of 40 bytes is a known one, so both are refused and the next line is read.
    for length in [40, 41, 1000] {
        let long = "9".repeat(length);
        after_ring(&format!("{long}\ncut"), "refused 2 9\n1 cut 0 0 0 0 0\nend 1\n");
    }
    let long = format!("cut{}", " ".repeat(38));
    after_ring(&long, "refused 2 9\nend 0\n");
    // The longest line that is understood.
    prints("ring 4294967295 4294967295 4294967295\n", "refused 1 1\nend 0\n");
}

#[test]
fn empty_lines_at_the_end() {
    after_ring("", "end 0\n");
    after_ring("cut\n", "1 cut 0 0 0 0 0\nend 1\n");
    after_ring("cut\n\n", "1 cut 0 0 0 0 0\nrefused 3 9\nend 1\n");
    after_ring("\n\n", "refused 2 9\nrefused 3 9\nend 0\n");
}

#[test]
fn a_refusal_names_its_line_and_goes_on() {
    let lines = "\
        put 2 0\nput 0 0\nput 0 5\nput 0 0\ntake 0\ngo 1\ngo 2\nback cell 4\nback copy 2\n\
        back cell 3\nback copy 1\nback tail\ntake 4294967295\ngo 0\ncut\n";
    let output = "\
        refused 2 2\nrefused 3 6\nrefused 5 4\nrefused 6 4\nrefused 7 5\nrefused 8 2\nrefused 9 3\n\
        refused 10 3\nrefused 14 2\n6 cut 0 0 0 0 0\nend 6\n";
    after_ring(lines, output);
}

#[test]
fn the_run_limit() {
    let mut input = "ring 1 1 1\n".to_string();
    input += &"back tail\n".repeat(999_999);
    input += "cut\ncut\nput 9 0\nnothing\n";
    let output = "\
        1000000 cut 0 0 0 0 0\nrefused 1000002 7\nrefused 1000003 7\nrefused 1000004 9\n\
        end 1000000\n";
    prints(&input, output);
}
