//! Recovery from a kept image, the listing of its queue, the cell reader, and host recovery on
//! bytes. The first four functions are for a sound image of the right length.

use crate::machine::Cell;
use crate::memory::{cell, copy_at, length, put_cell, tail_at};
use crate::sound::{in_range, refusal_without_record};

/// The largest of all marks and copies.
pub fn pass_mark(r: u32, n: u32, kept: &[u32]) -> u32 {
    let marks = (0..r).map(|j| cell(kept, j).mark);
    let copies = (0..n).map(|t| kept[copy_at(r, t)]);
    marks.chain(copies).max().unwrap_or(0)
}

/// Index and item of the occupied cells from the pass mark on, by rising index, then by cell.
pub fn queue(r: u32, n: u32, kept: &[u32]) -> Vec<(u32, u32)> {
    let mark = pass_mark(r, n, kept);
    let cells = (0..r).map(|j| cell(kept, j));
    let queued = cells.filter(|cell| cell.item != 0 && cell.index >= mark);
    let mut queue: Vec<(u32, u32)> = queued.map(|cell| (cell.index, cell.item)).collect();
    queue.sort_by_key(|&(index, _)| index);
    queue
}

pub fn head_and_tail(r: u32, n: u32, kept: &[u32]) -> (u32, u32) {
    let mark = pass_mark(r, n, kept);
    match queue(r, n, kept).as_slice() {
        [] => (mark, mark),
        [first, .., last] => (first.0, last.0 + 1),
        [only] => (only.0, only.0 + 1),
    }
}

/// Makes the kept image what a cut leaves. Closed stays.
pub fn recover(r: u32, n: u32, kept: &mut [u32]) {
    let mark = pass_mark(r, n, kept);
    let (head, tail) = head_and_tail(r, n, kept);
    for j in 0..r {
        let old = cell(kept, j);
        let mut new = Cell { safe: 1, mark: head, ..old };
        if old.item != 0 && old.index < mark {
            new.item = 0;
            new.index = old.index + r;
        }
        put_cell(kept, j, new);
    }
    for t in 0..n {
        kept[copy_at(r, t)] = head;
    }
    kept[tail_at(r, n)] = tail;
}

/// Writes the items that a cut now would queue and gives their count, or the refusal number.
pub fn listing(
    r: u32,
    n: u32,
    s: u32,
    events: u32,
    kept: &[u32],
    room: &mut [u32],
) -> Result<u32, u32> {
    if let Some(number) = refusal_without_record([r, n, s, events], kept, Some(room.len())) {
        return Err(number);
    }
    let queue = queue(r, n, kept);
    for (place, (_, item)) in queue.iter().enumerate() {
        room[place] = *item;
    }
    Ok(queue.len() as u32)
}

/// Which of the two images.
#[derive(Clone, Copy, Debug, PartialEq, Eq)]
pub enum Image {
    Running,
    Kept,
}

/// The four numbers of one cell as part of the chosen image; a part of length 0 is the refusal.
pub fn read_cell<'a>(
    r: u32,
    j: u32,
    which: Image,
    running: &'a [u32],
    kept: &'a [u32],
) -> &'a [u32] {
    let image = match which {
        Image::Running => running,
        Image::Kept => kept,
    };
    if !in_range(r, 1, 1) || j >= r || image.len() < 4 * r as usize {
        return &[];
    }
    &image[4 * j as usize..4 * j as usize + 4]
}

/// Recovery on bytes, four a number, low byte first. Gives the refusal number, or 0.
pub fn host_recovery(r: u32, n: u32, s: u32, events: u32, kept: &mut [u8]) -> u32 {
    let mut image = numbers(kept);
    if let Some(number) = refusal_without_record([r, n, s, events], &image, None) {
        return number;
    }
    recover(r, n, &mut image);
    for (at, number) in image[..length(r, n)].iter().enumerate() {
        kept[4 * at..4 * at + 4].copy_from_slice(&number.to_le_bytes());
    }
    0
}

/// The whole numbers that the bytes hold.
fn numbers(bytes: &[u8]) -> Vec<u32> {
    let fours = bytes.chunks_exact(4);
    fours.map(|four| u32::from_le_bytes([four[0], four[1], four[2], four[3]])).collect()
}
