//! The listing, the cell reader and host recovery on the images of cases H and J and on others
//! made up, each with what document 01 says they give.

use winterbeam_tests::check::{Ring, Shape};
use winterbeam_tests::machine::{Event, Line};
use winterbeam_tests::recovery::{host_recovery, listing, read_cell, Image};

/// Case H with this mark on cell 3: R 5, n 2.
fn case_h(mark: u32) -> Vec<u32> {
    vec![
        1, 0, 100, 0, 1, 1, 101, 0, 1, 2, 102, 0, 1, 8, 108, mark, 1, 4, 0, 0, // cells
        0, 0, 0, 3, // copies, closed, Tail
    ]
}

fn bytes(numbers: &[u32]) -> Vec<u8> {
    numbers.iter().flat_map(|number| number.to_le_bytes()).collect()
}

#[test]
fn the_listing_writes_what_a_cut_would_queue_and_nothing_past_it() {
    let mut room = [9; 7];
    assert_eq!(listing(5, 2, 1, 9, &case_h(0), &mut room), Ok(4));
    assert_eq!(room, [100, 101, 102, 108, 9, 9, 9]);
    let mut room = [9; 5];
    assert_eq!(listing(5, 2, 1, 9, &case_h(4), &mut room), Ok(1));
    assert_eq!(room, [108, 9, 9, 9, 9]);
}

#[test]
fn the_listing_goes_by_rising_index_and_then_by_cell() {
    let kept = [
        0, 7, 31, 0, 1, 6, 32, 2, 0, 7, 33, 0, 1, 1, 34, 0, 1, 6, 35, 2, // cells
        2, 1, 0, // copy, closed, Tail
    ];
    let mut room = [9; 5];
    assert_eq!(listing(5, 1, 3, 8, &kept, &mut room), Ok(4));
    assert_eq!(room, [32, 35, 31, 33, 9]);
}

#[test]
fn the_pass_mark_may_be_a_copy_or_a_mark() {
    // One queued index on each side of a mark of 5, from a copy and from a blank cell's mark.
    for (mark, copy) in [(5, 0), (0, 5), (5, 5)] {
        let kept = [1, 4, 41, 0, 1, 5, 51, 0, 1, 5, 0, mark, 0, copy, 1, 0];
        let mut room = [9; 3];
        assert_eq!(listing(3, 2, 1, 6, &kept, &mut room), Ok(1));
        assert_eq!(room, [51, 9, 9]);
    }
}

#[test]
fn host_recovery_leaves_what_a_cut_would() {
    let left = [
        1, 5, 0, 8, 1, 6, 0, 8, 1, 7, 0, 8, 1, 8, 108, 8, 1, 4, 0, 8, // cells
        8, 8, 0, 9, // copies, closed, Tail
    ];
    let past = [1, 2, 3, 4, 5, 6];
    let mut kept = [bytes(&case_h(4)), past.to_vec()].concat();
    assert_eq!(host_recovery(5, 2, 1, 9, &mut kept), 0);
    assert_eq!(kept, [bytes(&left), past.to_vec()].concat());
    // A second recovery changes nothing but the pass mark's origin: it is Head now.
    assert_eq!(host_recovery(5, 2, 1, 9, &mut kept), 0);
    assert_eq!(kept, [bytes(&left), past.to_vec()].concat());
}

#[test]
fn host_recovery_reads_the_low_byte_first() {
    let mut kept = vec![0; 28];
    kept[0] = 1;
    kept[5] = 1; // index 256
    kept[8..12].copy_from_slice(&[4, 3, 2, 1]);
    assert_eq!(host_recovery(1, 1, 1, 256, &mut kept.clone()), 12);
    assert_eq!(host_recovery(1, 1, 1, 257, &mut kept), 0);
    let index = [0, 1, 0, 0];
    let left = [[1, 0, 0, 0], index, [4, 3, 2, 1], index, index, [0; 4], [1, 1, 0, 0]];
    assert_eq!(kept, left.concat());
}

#[test]
fn host_recovery_keeps_closed() {
    let mut kept = bytes(&[0, 0, 0, 0, 0, 1, 0]);
    assert_eq!(host_recovery(1, 1, 1, 0, &mut kept), 0);
    assert_eq!(kept, bytes(&[1, 0, 0, 0, 0, 1, 0]));
}

#[test]
fn the_reader_hands_back_a_part_of_the_chosen_image() {
    let running: Vec<u32> = (100..116).collect();
    let kept: Vec<u32> = (200..216).collect();
    for j in 0..3 {
        let at = 4 * j as usize;
        for (which, image) in [(Image::Running, &running), (Image::Kept, &kept)] {
            let part = read_cell(3, j, which, &running, &kept);
            assert_eq!(part, &image[at..at + 4]);
            assert!(std::ptr::eq(part, &image[at..at + 4]));
        }
    }
    assert!(read_cell(3, 3, Image::Kept, &running, &kept).is_empty());
    assert!(read_cell(u32::MAX, 0, Image::Kept, &running, &kept).is_empty());
    assert!(read_cell(3, u32::MAX, Image::Running, &running, &kept).is_empty());
}

#[test]
fn the_reader_sees_a_write_back() {
    let mut ring = Ring::fresh(Shape { r: 2, n: 1, s: 1 });
    for event in [Event::Put(0, 8), Event::Step(0), Event::Step(0), Event::Step(0)] {
        ring.event(event);
    }
    let read = |ring: &Ring, which| read_cell(2, 0, which, &ring.running, &ring.kept).to_vec();
    assert_eq!(read(&ring, Image::Running), [1, 0, 8, 0]);
    assert_eq!(read(&ring, Image::Kept), [1, 0, 0, 0]);
    ring.event(Event::Back(Line::Cell(0)));
    assert_eq!(read(&ring, Image::Kept), [1, 0, 8, 0]);
}
