//! When a record and an image are sound, and which refusal an event meets first.

use crate::machine::{Control, Event, Line, Thread, IDLE, P1, P10, T1, T10};
use crate::memory::{cell, closed_at, copy_at, length, tail_at};

/// R, n and S are in range.
pub fn in_range(r: u32, n: u32, s: u32) -> bool {
    (1..=Control::CELLS).contains(&r)
        && (1..=Control::THREADS).contains(&n)
        && (1..=Control::TRIES).contains(&s)
}

pub fn record_sound(control: &Control) -> bool {
    in_range(control.r, control.n, control.s)
        && control.events <= Control::EVENTS
        && control.head <= control.events
        && (0..Control::THREADS).all(|t| thread_sound(control, t))
}

fn thread_sound(control: &Control, t: u32) -> bool {
    let thread = control.thread[t as usize];
    if t >= control.n || thread.place == IDLE {
        return thread == Thread::default();
    }
    let putting = (P1..=P10).contains(&thread.place);
    let taking = (T1..=T10).contains(&thread.place);
    let may_hold_zero = thread.place == P1 || thread.place == T1;
    (putting || taking)
        && thread.tries < control.s
        && (thread.line == Line::None || line_exists(control, thread.line))
        && (thread.item != 0 || taking)
        && (thread.number < control.events || (may_hold_zero && thread.number == 0))
}

/// The line is a cell below R, a copy below n, or Tail.
fn line_exists(control: &Control, line: Line) -> bool {
    match line {
        Line::None => false,
        Line::Cell(j) => j < control.r,
        Line::Copy(t) => t < control.n,
        Line::Tail => true,
    }
}

/// For an image of at least 4R + n + 2 numbers.
pub fn image_sound(r: u32, n: u32, events: u32, image: &[u32]) -> bool {
    let cells_sound = (0..r).all(|j| {
        let cell = cell(image, j);
        let index_limit = if cell.item == 0 { events + r } else { events };
        cell.safe <= 1 && cell.mark <= events && cell.index < index_limit
    });
    cells_sound
        && (0..n).all(|t| image[copy_at(r, t)] <= events)
        && image[closed_at(r, n)] <= 1
        && image[tail_at(r, n)] <= events
}

/// The first refusal that an event meets: 8, 10, 12, 7, 2, 3, 4 or 5, 6.
pub fn refusal(control: &Control, event: Event, running: &[u32], kept: &[u32]) -> Option<u32> {
    let (r, n, events) = (control.r, control.n, control.events);
    if !record_sound(control) {
        return Some(8);
    }
    if running.len() < length(r, n) || kept.len() < length(r, n) {
        return Some(10);
    }
    if !image_sound(r, n, events, running) || !image_sound(r, n, events, kept) {
        return Some(12);
    }
    if events == Control::EVENTS {
        return Some(7);
    }
    let busy = |t: u32| control.thread[t as usize].place != IDLE;
    match event {
        Event::Put(t, _) | Event::Take(t) | Event::Step(t) if t >= n => Some(2),
        Event::Back(line) if !line_exists(control, line) => Some(3),
        Event::Put(t, _) | Event::Take(t) if busy(t) => Some(4),
        Event::Step(t) if !busy(t) => Some(5),
        Event::Put(_, 0) => Some(6),
        _ => None,
    }
}

/// The first refusal of listing and host recovery, which lend no record: 8, 10, 12, 11.
/// The room is given where there is one.
pub fn refusal_without_record(
    [r, n, s, events]: [u32; 4],
    kept: &[u32],
    room: Option<usize>,
) -> Option<u32> {
    if !in_range(r, n, s) || events > Control::EVENTS {
        return Some(8);
    }
    if kept.len() < length(r, n) {
        return Some(10);
    }
    if !image_sound(r, n, events, kept) {
        return Some(12);
    }
    match room {
        Some(room) if room < r as usize => Some(11),
        _ => None,
    }
}
