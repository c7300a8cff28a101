//! The control record with its limits, the events, setup, and the entry that takes an event.

use crate::answer::Answer;
use crate::memory::{closed_at, copy_at, length, put_cell, tail_at};
use crate::{recovery, rows, sound};

/// The numbers of the places: idle, P1 to P10, T1 to T10.
pub const IDLE: u32 = 0;
pub const P1: u32 = 1;
pub const P2: u32 = 2;
pub const P3: u32 = 3;
pub const P4: u32 = 4;
pub const P5: u32 = 5;
pub const P6: u32 = 6;
pub const P7: u32 = 7;
pub const P8: u32 = 8;
pub const P9: u32 = 9;
pub const P10: u32 = 10;
pub const T1: u32 = 11;
pub const T2: u32 = 12;
pub const T3: u32 = 13;
pub const T4: u32 = 14;
pub const T5: u32 = 15;
pub const T6: u32 = 16;
pub const T7: u32 = 17;
pub const T8: u32 = 18;
pub const T9: u32 = 19;
pub const T10: u32 = 20;

/// A line of memory, or none.
#[derive(Clone, Copy, Debug, Default, PartialEq, Eq)]
pub enum Line {
    #[default]
    None,
    Cell(u32),
    Copy(u32),
    Tail,
}

impl Line {
    /// The line's kind and place.
    pub fn numbers(self) -> (u32, u32) {
        match self {
            Line::None => (0, 0),
            Line::Cell(j) => (1, j),
            Line::Copy(t) => (2, t),
            Line::Tail => (3, 0),
        }
    }
}

/// The four numbers of a cell. Item 0 means blank.
#[derive(Clone, Copy, Debug, Default, PartialEq, Eq)]
pub struct Cell {
    pub safe: u32,
    pub index: u32,
    pub item: u32,
    pub mark: u32,
}

/// One thread's record. `cell` is the cell as last looked at, `line` the awaited line.
#[derive(Clone, Copy, Debug, Default, PartialEq, Eq)]
pub struct Thread {
    pub place: u32,
    pub item: u32,
    pub number: u32,
    pub cell: Cell,
    pub tries: u32,
    pub line: Line,
}

/// The control record: R, n, S, event count, Head and the threads.
#[derive(Clone, Copy, Debug, Default, PartialEq, Eq)]
pub struct Control {
    pub r: u32,
    pub n: u32,
    pub s: u32,
    pub events: u32,
    pub head: u32,
    pub thread: [Thread; 8],
}

impl Control {
    pub const CELLS: u32 = 64;
    pub const THREADS: u32 = 8;
    pub const TRIES: u32 = 255;
    pub const EVENTS: u32 = 1_000_000;

    /// The record of a fresh ring.
    pub fn fresh(r: u32, n: u32, s: u32) -> Control {
        Control { r, n, s, ..Control::default() }
    }
}

/// What can happen: `Put(thread, item)`, `Take(thread)`, `Step(thread)`, a write-back, a cut.
#[derive(Clone, Copy, Debug, PartialEq, Eq)]
pub enum Event {
    Put(u32, u32),
    Take(u32),
    Step(u32),
    Back(Line),
    Cut,
}

/// Makes both images fresh. Gives the fresh record, or a record of zeros and the refusal number.
pub fn setup(
    r: u32,
    n: u32,
    s: u32,
    running: &mut [u32],
    kept: &mut [u32],
) -> (Control, Option<u32>) {
    if !sound::in_range(r, n, s) {
        return (Control::default(), Some(1));
    }
    let length = length(r, n);
    if running.len() < length || kept.len() < length {
        return (Control::default(), Some(10));
    }
    for image in [running, kept] {
        image[..length].fill(0);
        for j in 0..r {
            put_cell(image, j, Cell { safe: 1, index: j, item: 0, mark: 0 });
        }
    }
    (Control::fresh(r, n, s), None)
}

/// Takes one event. A refused one changes nothing.
pub fn event(
    mut control: Control,
    event: Event,
    running: &mut [u32],
    kept: &mut [u32],
) -> (Control, Answer) {
    if let Some(number) = sound::refusal(&control, event, running, kept) {
        return (control, Answer::Refused(number));
    }
    control.events += 1;
    let answer = match event {
        Event::Put(t, item) => {
            control.thread[t as usize].place = P1;
            control.thread[t as usize].item = item;
            Answer::Begun(t)
        }
        Event::Take(t) => {
            control.thread[t as usize].place = T1;
            Answer::Begun(t)
        }
        Event::Step(t) => rows::step(&mut control, t, running),
        Event::Back(line) => write_back(&mut control, line, running, kept),
        Event::Cut => cut(&mut control, running, kept),
    };
    (control, answer)
}

/// Copies the line from running to kept; every thread awaiting it awaits nothing.
fn write_back(control: &mut Control, line: Line, running: &[u32], kept: &mut [u32]) -> Answer {
    let (r, n) = (control.r, control.n);
    let part = match line {
        Line::None => 0..0,
        Line::Cell(j) => 4 * j as usize..4 * j as usize + 4,
        Line::Copy(t) => copy_at(r, t)..copy_at(r, t) + 1,
        Line::Tail => closed_at(r, n)..tail_at(r, n) + 1,
    };
    kept[part.clone()].copy_from_slice(&running[part]);
    for thread in &mut control.thread {
        if thread.line == line {
            thread.line = Line::None;
        }
    }
    Answer::Written(line)
}

/// All threads go idle, and both images hold what recovery makes of kept.
fn cut(control: &mut Control, running: &mut [u32], kept: &mut [u32]) -> Answer {
    let (r, n) = (control.r, control.n);
    let mark = recovery::pass_mark(r, n, kept);
    let count = recovery::queue(r, n, kept).len() as u32;
    let (head, tail) = recovery::head_and_tail(r, n, kept);
    recovery::recover(r, n, kept);
    running[..length(r, n)].copy_from_slice(&kept[..length(r, n)]);
    control.head = head;
    control.thread = Default::default();
    Answer::Cut(mark, head, tail, kept[closed_at(r, n)], count)
}
