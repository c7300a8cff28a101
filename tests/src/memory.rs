//! Where the numbers of a ring stand in an image: cell j at 4j, then the copies, closed, Tail.

use crate::machine::Cell;

/// How many numbers of an image are the ring's.
pub fn length(r: u32, n: u32) -> usize {
    (4 * r + n + 2) as usize
}

/// Where thread t's local copy of Head stands.
pub fn copy_at(r: u32, t: u32) -> usize {
    (4 * r + t) as usize
}

pub fn closed_at(r: u32, n: u32) -> usize {
    (4 * r + n) as usize
}

pub fn tail_at(r: u32, n: u32) -> usize {
    (4 * r + n + 1) as usize
}

/// The four numbers of cell j.
pub fn cell(image: &[u32], j: u32) -> Cell {
    let at = 4 * j as usize;
    Cell { safe: image[at], index: image[at + 1], item: image[at + 2], mark: image[at + 3] }
}

pub fn put_cell(image: &mut [u32], j: u32, cell: Cell) {
    let at = 4 * j as usize;
    image[at..at + 4].copy_from_slice(&[cell.safe, cell.index, cell.item, cell.mark]);
}
