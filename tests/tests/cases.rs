//! Cases A to F and I of document 01, both sides of each, with the whole answers. Cases G, H and J
//! stand in cases_ghj.rs.

use winterbeam_tests::play::{confirmed, handed, play, ring};

/// Case A up to the cut: 711 confirmed, and a take that has taken it and stopped.
const TAKEN: &str = "
    put 0 711 => 1 0
    go 0 => 2 0 0
    go 0 => 3 0 0 0
    go 0 => 5 0 0 0 711
    go 0 => 7 0 0
    back cell 0 => 20 1 0
    go 0 => 9 0 0 711
    take 1 => 1 1
    go 1 => 2 1 0
    go 1 => 3 1 0 0
    go 1 => 12 1 0 0 711";

const AS_A: &str = "cut => 21 0 0 1 0 1";
const AS_B: &str = "cut => 21 1 1 1 0 0";

/// Plays on a ring of 4 cells, 2 threads and 16 tries, as in case A; checks what both images hold.
fn four_two(lines: &[&str], cells: [u32; 16], rest: [u32; 4]) {
    let mut ring = ring("ring 4 2 16");
    let mut count = 0;
    for lines in lines {
        count += play(&mut ring, lines);
    }
    assert!(count > 1);
    assert_eq!(ring.control.events, count);
    assert_eq!(ring.kept[..16], cells);
    assert_eq!(ring.kept[16..], rest);
    assert_eq!(ring.running, ring.kept);
    assert!(ring.control.thread.iter().all(|thread| *thread == Default::default()));
}

#[test]
fn case_a_the_item_is_queued_again() {
    let cells = [1, 0, 711, 0, 1, 1, 0, 0, 1, 2, 0, 0, 1, 3, 0, 0];
    four_two(&[TAKEN, AS_A], cells, [0, 0, 0, 1]);
}

#[test]
fn case_a_other_side_without_the_write_back_it_waits() {
    let waiting = "
        put 0 711 => 1 0
        go 0 => 2 0 0
        go 0 => 3 0 0 0
        go 0 => 5 0 0 0 711
        go 0 => 7 0 0
        go 0 => 8 0 0
        cut => 21 0 0 0 0 0";
    let cells = [1, 0, 0, 0, 1, 1, 0, 0, 1, 2, 0, 0, 1, 3, 0, 0];
    four_two(&[waiting], cells, [0, 0, 0, 0]);
}

/// What cases B and C leave: the item's cell blank one round on, all marks and copies 1.
const B_CELLS: [u32; 16] = [1, 4, 0, 1, 1, 1, 0, 1, 1, 2, 0, 1, 1, 3, 0, 1];
const B_REST: [u32; 4] = [1, 1, 0, 1];

#[test]
fn case_b_the_copy_was_written() {
    let copied = "
        go 1 => 17 1 0 1
        go 1 => 7 1 0
        back copy 1 => 20 2 1";
    four_two(&[TAKEN, copied, AS_B], B_CELLS, B_REST);
}

#[test]
fn case_b_other_side_the_copy_was_written_too_early() {
    let too_early = "
        back copy 1 => 20 2 1
        go 1 => 17 1 0 1
        go 1 => 7 1 0";
    let cells = [1, 0, 711, 0, 1, 1, 0, 0, 1, 2, 0, 0, 1, 3, 0, 0];
    four_two(&[TAKEN, too_early, AS_A], cells, [0, 0, 0, 1]);
}

#[test]
fn case_c_the_cell_was_written() {
    four_two(&[TAKEN, "back cell 0 => 20 1 0", AS_B], B_CELLS, B_REST);
}

#[test]
fn case_c_other_side_another_cell_was_written() {
    let cells = [1, 0, 711, 0, 1, 1, 0, 0, 1, 2, 0, 0, 1, 3, 0, 0];
    four_two(&[TAKEN, "back cell 1 => 20 1 1", AS_A], cells, [0, 0, 0, 1]);
}

#[test]
fn case_d_landed_and_not_written() {
    let landed = "
        put 0 711 => 1 0
        go 0 => 2 0 0
        go 0 => 3 0 0 0
        go 0 => 5 0 0 0 711
        cut => 21 0 0 0 0 0";
    let cells = [1, 0, 0, 0, 1, 1, 0, 0, 1, 2, 0, 0, 1, 3, 0, 0];
    four_two(&[landed], cells, [0, 0, 0, 0]);
}

#[test]
fn case_d_other_side_landed_and_written() {
    let landed = "
        put 0 711 => 1 0
        go 0 => 2 0 0
        go 0 => 3 0 0 0
        go 0 => 5 0 0 0 711
        back cell 0 => 20 1 0
        cut => 21 0 0 1 0 1";
    let cells = [1, 0, 711, 0, 1, 1, 0, 0, 1, 2, 0, 0, 1, 3, 0, 0];
    four_two(&[landed], cells, [0, 0, 0, 1]);
}

#[test]
fn case_e_a_take_on_a_fresh_ring() {
    let mut ring = ring("ring 4 1 16");
    let empty = "
        take 0 => 1 0
        go 0 => 2 0 0
        go 0 => 3 0 0 0
        go 0 => 14 0 0 0
        go 0 => 15 0 0 0
        go 0 => 16 0 0 1
        go 0 => 17 0 0 1
        # The easy slip: this write-back comes before the ask and satisfies no wait.
        back copy 0 => 20 2 0
        go 0 => 7 0 0
        go 0 => 8 0 0
        go 0 => 8 0 0
        back copy 0 => 20 2 0
        go 0 => 19 0 0
        cut => 21 1 1 1 0 0";
    assert_eq!(play(&mut ring, empty), 14);
    assert_eq!(ring.control.head, 1);
}

#[test]
fn case_e_other_side_with_something_queued_it_is_handed_out() {
    let mut ring = ring("ring 4 1 16");
    play(&mut ring, &confirmed(4, 0, 0, 711));
    play(&mut ring, &handed(4, 0, 0, 711));
    assert_eq!(play(&mut ring, AS_B), 1);
}

/// A second put on a ring of one cell closes it; up to the ask.
const SETS_CLOSED: &str = "
    put 0 6 => 1 0
    go 0 => 2 0 1
    go 0 => 3 0 1 0
    go 0 => 4 0 1 0
    go 0 => 11 0 1
    go 0 => 7 0 1";

#[test]
fn case_f_one_cell_is_full() {
    let mut ring = ring("ring 1 1 16");
    play(&mut ring, &confirmed(1, 0, 0, 5));
    play(&mut ring, SETS_CLOSED);
    let closed = "
        go 0 => 8 0 1
        back tail => 20 3 0
        go 0 => 10 0 1
        # Closed stays closed: the next put is sent to P7 at once.
        put 0 7 => 1 0
        go 0 => 2 0 2
        go 0 => 7 0 2
        back tail => 20 3 0
        go 0 => 10 0 2";
    assert_eq!(play(&mut ring, closed), 8);
}

#[test]
fn case_f_other_side_two_cells_have_room() {
    let mut ring = ring("ring 2 1 16");
    play(&mut ring, &confirmed(2, 0, 0, 5));
    play(&mut ring, &confirmed(2, 0, 1, 6));
    assert_eq!(play(&mut ring, "cut => 21 0 0 2 0 2"), 1);
    assert_eq!(ring.queue(), [(0, 5), (1, 6)]);
}

#[test]
fn case_i_closed_answered() {
    let mut ring = ring("ring 1 1 16");
    play(&mut ring, &confirmed(1, 0, 0, 5));
    play(&mut ring, SETS_CLOSED);
    let cut = "
        back tail => 20 3 0
        go 0 => 10 0 1
        cut => 21 0 0 1 1 1
        cut => 21 0 0 1 1 1";
    assert_eq!(play(&mut ring, cut), 4);
    assert_eq!(ring.kept, [1, 0, 5, 0, 0, 1, 1]);
}

#[test]
fn case_i_other_side_closed_set_and_never_written() {
    let mut ring = ring("ring 1 1 16");
    play(&mut ring, &confirmed(1, 0, 0, 5));
    play(&mut ring, SETS_CLOSED);
    assert_eq!(play(&mut ring, "cut => 21 0 0 1 0 1"), 1);
    assert_eq!(ring.kept, [1, 0, 5, 0, 0, 0, 1]);
    assert_eq!(ring.running, ring.kept);
}
