//! Cases G, H and J of document 01, both sides of each, with the whole answers: what marks, indexes
//! and copies tell recovery.

use winterbeam_tests::check::Ring;
use winterbeam_tests::play::{confirmed, handed, play, ring};

/// Case G up to the second put's landing under 5: items 10 to 13 are a to d, 14 is e.
fn case_g() -> Ring {
    let mut ring = ring("ring 4 3 2");
    for number in 0..4 {
        play(&mut ring, &confirmed(4, 0, number, 10 + number));
    }
    let lands = "
        take 1 => 1 1
        go 1 => 2 1 0
        take 2 => 1 2
        go 2 => 2 2 1
        go 2 => 3 2 1 1
        go 2 => 12 2 1 1 11
        put 0 14 => 1 0
        go 0 => 2 0 4
        go 0 => 3 0 4 0
        go 0 => 4 0 4 2
        go 0 => 2 0 5
        go 0 => 3 0 5 1
        go 0 => 5 0 5 1 14";
    assert_eq!(play(&mut ring, lands), 13);
    ring
}

#[test]
fn case_g_the_mark_carries_what_was_passed() {
    let mut ring = case_g();
    let cut = "
        go 0 => 7 0 5
        back cell 1 => 20 1 1
        go 0 => 9 0 5 14
        cut => 21 2 2 6 0 3";
    assert_eq!(play(&mut ring, cut), 4);
    assert_eq!(ring.queue(), [(2, 12), (3, 13), (5, 14)]);
    assert_eq!(ring.control.head, 2);
    let cells = [1, 4, 0, 2, 1, 5, 14, 2, 1, 2, 12, 2, 1, 3, 13, 2];
    assert_eq!(ring.kept[..16], cells);
    assert_eq!(ring.kept[16..], [2, 2, 2, 0, 6]);
}

#[test]
fn case_g_other_side_the_last_put_was_not_written() {
    let mut ring = case_g();
    let cut = "
        go 0 => 7 0 5
        go 0 => 8 0 5
        cut => 21 0 0 4 0 4";
    assert_eq!(play(&mut ring, cut), 3);
    assert_eq!(ring.queue(), [(0, 10), (1, 11), (2, 12), (3, 13)]);
}

/// A ring with this kept image after that many events, and running memory that is worth nothing.
fn made_up(line: &str, events: u32, kept: &[u32]) -> Ring {
    let mut ring = ring(line);
    ring.control.events = events;
    assert_eq!(ring.kept.len(), kept.len());
    ring.kept = kept.to_vec();
    ring
}

/// Case H: x0, x1, x2 and x8 are items 100, 101, 102, 108; cell 3 has this mark.
fn case_h(mark: u32) -> Ring {
    let kept = [
        [1, 0, 100, 0],
        [1, 1, 101, 0],
        [1, 2, 102, 0],
        [1, 8, 108, mark],
        [1, 4, 0, 0],
        // Two copies, closed, and Tail, which isn't read.
        [0, 0, 0, 3],
    ];
    made_up("ring 5 2 1", 9, &kept.concat())
}

#[test]
fn case_h_an_index_tells_nothing_of_the_round_before() {
    let mut ring = case_h(0);
    assert_eq!(play(&mut ring, "cut => 21 0 0 9 0 4"), 1);
    assert_eq!(ring.queue(), [(0, 100), (1, 101), (2, 102), (8, 108)]);
    let kept = [1, 0, 100, 0, 1, 1, 101, 0, 1, 2, 102, 0, 1, 8, 108, 0, 1, 4, 0, 0, 0, 0, 0, 9];
    assert_eq!(ring.kept, kept);
    assert_eq!(ring.running, kept);
}

#[test]
fn case_h_other_side_a_mark_tells() {
    let mut ring = case_h(4);
    assert_eq!(play(&mut ring, "cut => 21 4 8 9 0 1"), 1);
    assert_eq!(ring.queue(), [(8, 108)]);
    assert_eq!(ring.control.head, 8);
    // Every mark and copy is Head now, so a second cut finds that as the pass mark.
    assert_eq!(play(&mut ring, "cut => 21 8 8 9 0 1"), 1);
    let kept = [1, 5, 0, 8, 1, 6, 0, 8, 1, 7, 0, 8, 1, 8, 108, 8, 1, 4, 0, 8, 8, 8, 0, 9];
    assert_eq!(ring.kept, kept);
    assert_eq!(ring.running, kept);
}

/// Case J: x0 is still there, 5 and 6 are occupied, cell 3 is blank; one of two copies is given.
fn case_j(copy: u32) -> Ring {
    let kept = [[1, 0, 100, 0], [1, 5, 105, 0], [1, 6, 106, 0], [1, 7, 0, 0], [0, copy, 0, 0]];
    made_up("ring 4 2 1", 7, &kept.concat())
}

#[test]
fn case_j_the_head_is_the_smallest_queued() {
    let mut ring = case_j(4);
    assert_eq!(play(&mut ring, "cut => 21 4 5 7 0 2"), 1);
    assert_eq!(ring.queue(), [(5, 105), (6, 106)]);
    assert_eq!(ring.control.head, 5);
    assert_eq!(play(&mut ring, "cut => 21 5 5 7 0 2"), 1);
    let kept = [1, 4, 0, 5, 1, 5, 105, 5, 1, 6, 106, 5, 1, 7, 0, 5, 5, 5, 0, 7];
    assert_eq!(ring.kept, kept);
}

#[test]
fn case_j_other_side_without_the_copy_the_first_is_queued() {
    let mut ring = case_j(0);
    assert_eq!(play(&mut ring, "cut => 21 0 0 7 0 3"), 1);
    assert_eq!(ring.queue(), [(0, 100), (5, 105), (6, 106)]);
}

#[test]
fn case_j_played_from_a_fresh_ring() {
    let mut ring = ring("ring 4 4 16");
    for number in 0..4 {
        play(&mut ring, &confirmed(4, 0, number, 100 + number));
    }
    play(&mut ring, "take 1 => 1 1\ngo 1 => 2 1 0");
    for number in 1..4 {
        play(&mut ring, &handed(4, 2, number, 100 + number));
    }
    play(&mut ring, "put 3 104 => 1 3\ngo 3 => 2 3 4");
    for number in 5..7 {
        play(&mut ring, &confirmed(4, 0, number, 100 + number));
    }
    assert_eq!(play(&mut ring, "cut => 21 4 5 7 0 2"), 1);
    assert_eq!(ring.queue(), [(5, 105), (6, 106)]);
}
