//! Kept images for host recovery: sound ones, damaged ones, too short, too long, and rings out of
//! range; and the smallest call that still fails.

use crate::check::{Ring, Shape};
use crate::client::Call;
use crate::machine::{Cell, Control};
use crate::memory::{closed_at, copy_at, length, put_cell, tail_at};
use crate::random::{run, Random};

/// A call for a ring of r cells and n threads, unless it is made to be out of range.
pub fn call(random: &mut Random, r: u32, n: u32) -> Call {
    let tries = random.pick(&[1, 2, 16, 254, 255]);
    let mut events = event_count(random, r);
    let mut image = match random.below(10) {
        0 => (0..length(r, n)).map(|_| random.draw() as u32).collect(),
        1 | 2 => {
            let (image, count) = of_a_run(random, Shape { r, n, s: tries });
            events = if random.chance(80) { count } else { events };
            image
        }
        _ => sound(random, r, n, events),
    };
    if random.chance(25) {
        for _ in 0..random.within(1, 2) {
            damage(random, r, events, &mut image);
        }
    }
    let mut kept: Vec<u8> = image.iter().flat_map(|number| number.to_le_bytes()).collect();
    resize(random, &mut kept);
    let offset = random.below(9) as usize;
    let mut call = Call { cells: r, threads: n, tries, events, kept, offset };
    if random.chance(10) {
        out_of_range(random, &mut call);
    }
    call
}

fn event_count(random: &mut Random, r: u32) -> u32 {
    match random.below(4) {
        0 => random.pick(&[0, 1, r, Control::EVENTS - 1, Control::EVENTS]),
        1 => random.within(0, 200),
        2 => random.within(0, 3 * r),
        _ => random.within(0, Control::EVENTS),
    }
}

/// A number up to the last, often one of the first or the last.
fn up_to(random: &mut Random, last: u32) -> u32 {
    match random.below(6) {
        0 => 0,
        1 => last,
        2 => last.saturating_sub(1),
        3 => random.within(0, last.min(3)),
        _ => random.within(0, last),
    }
}

/// A sound image. Most have indexes, marks and copies that lie close together, on both sides of
/// the pass mark.
fn sound(random: &mut Random, r: u32, n: u32, events: u32) -> Vec<u32> {
    let base = up_to(random, events);
    let close = random.chance(70);
    let filled = random.pick(&[0, 30, 60, 90, 100]);
    let marked = random.pick(&[0, 5, 30, 100]);
    let number = |random: &mut Random, last: u32| {
        if close {
            (base + random.below(2 * r)).min(last)
        } else {
            up_to(random, last)
        }
    };
    let pass = |random: &mut Random| {
        if random.chance(marked) {
            number(random, events)
        } else {
            up_to(random, base.min(events))
        }
    };
    let mut image = vec![0; length(r, n)];
    for j in 0..r {
        let occupied = events > 0 && random.chance(filled);
        let last = if occupied { events - 1 } else { events + r - 1 };
        let any = random.draw() as u32 | 1;
        let item = if occupied { random.pick(&[1, 711, any, u32::MAX]) } else { 0 };
        let (safe, index) = (random.below(2), number(random, last));
        let mark = pass(random);
        put_cell(&mut image, j, Cell { safe, index, item, mark });
    }
    for t in 0..n {
        image[copy_at(r, t)] = pass(random);
    }
    image[closed_at(r, n)] = random.below(2);
    image[tail_at(r, n)] = up_to(random, events);
    image
}

/// The kept image that a random run leaves, and its event count.
fn of_a_run(random: &mut Random, shape: Shape) -> (Vec<u32>, u32) {
    let count = random.within(0, 40 + 8 * shape.r);
    let mut ring = Ring::fresh(shape);
    for event in run(random, shape, count) {
        ring.event(event);
    }
    (ring.kept, ring.control.events)
}

/// Another number somewhere: often one that is just too large, or one bit off.
fn damage(random: &mut Random, r: u32, events: u32, image: &mut [u32]) {
    let at = random.below(image.len() as u32) as usize;
    let bit = 1 << random.below(32);
    let any = random.draw() as u32;
    let close = [2, events, events + 1, events + r - 1, events + r];
    image[at] = match random.below(4) {
        0 => image[at] ^ bit,
        1 => random.pick(&[any, u32::MAX, bit]),
        _ => random.pick(&close),
    };
}

/// Shorter, longer by a few bytes, longer than any image, or as it is.
fn resize(random: &mut Random, kept: &mut Vec<u8>) {
    let length = kept.len();
    let new = match random.below(12) {
        0 => length - random.pick(&[1, 2, 3, 4, 5]),
        1 => random.below(length as u32) as usize,
        2 => random.pick(&[0, 1, 3, 4]),
        3 => length + random.pick(&[1, 2, 3, 4, 5]),
        4 => length + random.below(100) as usize,
        5 => length + random.within(1_000, 3_000) as usize,
        _ => length,
    };
    kept.truncate(new);
    while kept.len() < new {
        kept.push(random.draw() as u8);
    }
}

/// At least one of R, n, S and the event count is made to be out of range.
fn out_of_range(random: &mut Random, call: &mut Call) {
    let which = random.within(1, 15);
    let any = random.draw() as u32 | 1 << 31;
    if which & 1 != 0 {
        call.cells = random.pick(&[0, 65, 66, 1 << 16, any, u32::MAX]);
    }
    if which & 2 != 0 {
        call.threads = random.pick(&[0, 9, 10, 1 << 16, any, u32::MAX]);
    }
    if which & 4 != 0 {
        call.tries = random.pick(&[0, 256, 257, 1 << 16, any, u32::MAX]);
    }
    if which & 8 != 0 {
        call.events = random.pick(&[Control::EVENTS + 1, 1 << 20, any, u32::MAX]);
    }
}

/// The smallest call that can be found from this one and that still fails.
pub fn smallest(mut call: Call, mut fails: impl FnMut(&Call) -> bool) -> Call {
    while let Some(smaller) = smaller(&call).into_iter().find(&mut fails) {
        call = smaller;
    }
    call
}

/// Calls that differ in one thing and are smaller.
fn smaller(call: &Call) -> Vec<Call> {
    let mut calls = Vec::new();
    let mut with = |change: &dyn Fn(&mut Call)| {
        let mut other = call.clone();
        change(&mut other);
        if other != *call {
            calls.push(other);
        }
    };
    let (r, n, bytes) = (call.cells as usize, call.threads as usize, call.kept.len());
    if 0 < r && r <= 64 {
        for j in (0..r).filter(|j| 16 * j + 16 <= bytes) {
            with(&|call| {
                call.cells -= 1;
                call.kept.drain(16 * j..16 * j + 16);
            });
        }
        if 0 < n && n <= 8 && 16 * r + 4 <= bytes {
            with(&|call| {
                call.threads -= 1;
                call.kept.drain(16 * r..16 * r + 4);
            });
        }
    }
    for new in [bytes / 2, bytes.saturating_sub(4), bytes.saturating_sub(1)] {
        with(&|call| call.kept.truncate(new));
    }
    with(&|call| call.offset = 0);
    with(&|call| call.tries = call.tries.min(1));
    for change in [|x: u32| x.min(1), |x: u32| x / 2, |x: u32| x.saturating_sub(1)] {
        with(&|call| call.events = change(call.events));
        for at in 0..bytes / 4 {
            with(&|call| {
                let four = &mut call.kept[4 * at..4 * at + 4];
                let number = u32::from_le_bytes([four[0], four[1], four[2], four[3]]);
                four.copy_from_slice(&change(number).to_le_bytes());
            });
        }
    }
    for at in 0..bytes {
        with(&|call| call.kept[at] = 0);
    }
    calls
}
