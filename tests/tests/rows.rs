//! Every row of the step table with every outcome, each by hand: the state before, the whole
//! answer, and what changes. Everything else must stay as it is. Then the events that are no step.

use winterbeam_tests::check::{Ring, Shape};
use winterbeam_tests::coverage::Coverage;
use winterbeam_tests::machine::*;
use winterbeam_tests::memory::{closed_at, put_cell, tail_at};

/// Four cells, two threads, three tries, 20 events, Head 5 and Tail 9. Thread 0 stands at the
/// place with number 6, so its cell is cell 2; it looked at (1, 6, 0, 3) and has tried once. A put
/// has item 77. Thread 1 awaits the Tail line. Kept differs from running.
fn at(place: u32) -> Ring {
    let mut ring = Ring::fresh_and(Shape { r: 4, n: 2, s: 3 }, &[5, 6]);
    ring.control.events = 20;
    ring.control.head = 5;
    ring.running[tail_at(4, 2)] = 9;
    ring.kept[tail_at(4, 2)] = 8;
    ring.kept[closed_at(4, 2)] = 1;
    ring.control.thread[0] = Thread {
        place,
        item: if place <= P10 { 77 } else { 0 },
        number: 6,
        cell: cell(1, 6, 0, 3),
        tries: 1,
        line: Line::None,
    };
    ring.control.thread[1] = Thread { place: P10, item: 4, number: 3, ..Thread::default() };
    ring.control.thread[1].line = Line::Tail;
    ring
}

fn cell(safe: u32, index: u32, item: u32, mark: u32) -> Cell {
    Cell { safe, index, item, mark }
}

/// Takes the thread 0 step, compares answer and outcome, and counts the row.
struct Rows(Coverage, u32);

impl Rows {
    /// The step from this place, after `prepare`, gives the answer, does `change` and goes on.
    fn row(
        &mut self,
        place: u32,
        prepare: impl Fn(&mut Ring),
        answer: &str,
        change: impl Fn(&mut Ring),
        next: u32,
    ) {
        let mut before = at(place);
        prepare(&mut before);
        let mut expected = before.clone();
        expected.control.events = 21;
        expected.control.thread[0].place = next;
        change(&mut expected);
        let mut after = before.clone();
        let given = after.event(Event::Step(0));
        assert_eq!(given.text(), answer, "place {place} to {next}");
        assert_eq!(after, expected, "place {place} to {next}");
        self.0.count(&before.control, &after.control, 0, given);
        self.1 += 1;
    }

    /// The step from this place misses, whichever of the four numbers differs.
    fn misses(&mut self, place: u32, next: u32) {
        let others = [cell(0, 6, 0, 3), cell(1, 2, 0, 3), cell(1, 6, 88, 3), cell(1, 6, 0, 4)];
        for other in others {
            self.row(place, |ring| set(ring, other), "6 0 6 2", nothing, next);
        }
    }
}

fn me(ring: &mut Ring) -> &mut Thread {
    &mut ring.control.thread[0]
}

/// Sets cell 2 of running.
fn set(ring: &mut Ring, cell: Cell) {
    put_cell(&mut ring.running, 2, cell);
}

/// Cell 2 of running is this cell, and the thread looked at just that.
fn looked(ring: &mut Ring, cell: Cell) {
    set(ring, cell);
    me(ring).cell = cell;
}

fn set_tail(ring: &mut Ring, tail: u32) {
    ring.running[tail_at(4, 2)] = tail;
}

fn set_closed(ring: &mut Ring) {
    ring.running[closed_at(4, 2)] = 1;
}

fn nothing(_: &mut Ring) {}

/// After the last answer: all fields of an idle thread are zero or none.
fn idle(ring: &mut Ring) {
    *me(ring) = Thread::default();
}

fn draws_nine(ring: &mut Ring) {
    me(ring).number = 9;
    me(ring).cell = Cell::default();
    set_tail(ring, 10);
}

#[test]
fn every_row_with_every_outcome() {
    let mut rows = Rows(Coverage::default(), 0);
    puts(&mut rows);
    takes(&mut rows);
    assert_eq!(rows.1, 74);
    assert_eq!(rows.0.missing(), []);
    assert_eq!(rows.0.unknown(), []);
}

fn puts(rows: &mut Rows) {
    rows.row(P1, nothing, "2 0 9", draws_nine, P2);
    rows.row(P1, set_closed, "2 0 9", draws_nine, P7);

    let free = [(cell(1, 6, 0, 3), P4), (cell(0, 6, 0, 3), P3), (cell(1, 2, 0, 0), P4)];
    let taken = [(cell(1, 7, 0, 3), P8), (cell(0, 7, 0, 3), P8), (cell(1, 2, 88, 3), P8)];
    for (cell, next) in free.into_iter().chain(taken) {
        rows.row(P2, |ring| set(ring, cell), "3 0 6 2", |ring| me(ring).cell = cell, next);
    }

    rows.row(P3, |ring| ring.control.head = 6, "4 0 6 6", nothing, P4);
    rows.row(P3, |ring| ring.control.head = 7, "4 0 6 7", nothing, P8);

    for safe in [0, 1] {
        let before = move |ring: &mut Ring| looked(ring, cell(safe, 2, 0, 3));
        let after = |ring: &mut Ring| set(ring, cell(1, 6, 77, 3));
        rows.row(P4, before, "5 0 6 2 77", after, P5);
    }
    rows.misses(P4, P8);

    rows.row(P5, nothing, "7 0 6", |ring| me(ring).line = Line::Cell(2), P6);
    for line in [Line::Cell(2), Line::Copy(1), Line::Tail] {
        rows.row(P6, |ring| me(ring).line = line, "8 0 6", nothing, P6);
    }
    rows.row(P6, nothing, "9 0 6 77", idle, IDLE);

    rows.row(P7, nothing, "7 0 6", |ring| me(ring).line = Line::Tail, P10);

    let number = |number| move |ring: &mut Ring| me(ring).number = number;
    let tries = |tries| move |ring: &mut Ring| me(ring).tries = tries;
    rows.row(P8, nothing, "4 0 6 5", tries(2), P1);
    rows.row(P8, number(8), "4 0 8 5", tries(2), P1);
    rows.row(P8, number(9), "4 0 9 5", tries(2), P9);
    rows.row(P8, |ring| (number(9)(ring), tries(0)(ring)).1, "4 0 9 5", tries(2), P9);
    rows.row(P8, tries(2), "4 0 6 5", tries(2), P9);
    rows.row(P8, tries(0), "4 0 6 5", tries(1), P1);

    rows.row(P9, nothing, "11 0 6", set_closed, P7);
    rows.row(P9, set_closed, "11 0 6", nothing, P7);

    for line in [Line::Cell(2), Line::Copy(1), Line::Tail] {
        rows.row(P10, |ring| me(ring).line = line, "8 0 6", nothing, P10);
    }
    rows.row(P10, nothing, "10 0 6", idle, IDLE);
}

fn takes(rows: &mut Rows) {
    let drew = |ring: &mut Ring| {
        me(ring).number = 5;
        me(ring).cell = Cell::default();
        ring.control.head = 6;
    };
    rows.row(T1, nothing, "2 0 5", drew, T2);
    rows.row(T1, set_closed, "2 0 5", drew, T2);

    let above = [(cell(1, 7, 0, 3), T6), (cell(1, 10, 88, 3), T6)];
    let blank = [(cell(1, 6, 0, 3), T5), (cell(0, 2, 0, 3), T5)];
    let occupied = [(cell(0, 6, 88, 3), T3), (cell(1, 5, 88, 3), T4), (cell(1, 2, 88, 3), T4)];
    for (cell, next) in above.into_iter().chain(blank).chain(occupied) {
        rows.row(T2, |ring| set(ring, cell), "3 0 6 2", |ring| me(ring).cell = cell, next);
    }

    for safe in [0, 1] {
        let emptied = cell(safe, 10, 0, 7);
        let before = |ring: &mut Ring| looked(ring, cell(safe, 6, 88, 3));
        let after = |ring: &mut Ring| {
            set(ring, emptied);
            me(ring).item = 88;
        };
        rows.row(T3, before, "12 0 6 2 88", after, T8);

        let before = |ring: &mut Ring| looked(ring, cell(safe, 2, 88, 3));
        let after = |ring: &mut Ring| set(ring, cell(0, 2, 88, 3));
        rows.row(T4, before, "13 0 6 2", after, T6);

        let before = |ring: &mut Ring| looked(ring, cell(safe, 2, 0, 3));
        rows.row(T5, before, "14 0 6 2", |ring| set(ring, emptied), T6);

        // Made up: a match with a blank cell takes item 0.
        let before = |ring: &mut Ring| looked(ring, cell(safe, 6, 0, 3));
        rows.row(T3, before, "12 0 6 2 0", |ring| set(ring, emptied), T8);
    }
    for place in [T3, T4, T5] {
        rows.misses(place, T2);
    }

    rows.row(T6, |ring| set_tail(ring, 7), "15 0 6 7", nothing, T7);
    rows.row(T6, |ring| set_tail(ring, 8), "15 0 6 8", nothing, T1);

    rows.row(T7, |ring| set_tail(ring, 4), "16 0 6 5", |ring| set_tail(ring, 5), T8);
    rows.row(T7, |ring| set_tail(ring, 7), "16 0 6 7", nothing, T8);

    rows.row(T8, nothing, "17 0 6 7", |ring| ring.running[16] = 7, T9);
    rows.row(T9, nothing, "7 0 6", |ring| me(ring).line = Line::Copy(0), T10);

    for line in [Line::Cell(2), Line::Copy(0), Line::Tail] {
        rows.row(T10, |ring| me(ring).line = line, "8 0 6", nothing, T10);
    }
    rows.row(T10, |ring| me(ring).item = 88, "18 0 6 88", idle, IDLE);
    rows.row(T10, nothing, "19 0 6", idle, IDLE);
}

/// The event changes just this and is counted.
fn does(event: Event, before: &Ring, answer: &str, change: impl Fn(&mut Ring)) {
    let mut expected = before.clone();
    expected.control.events += 1;
    change(&mut expected);
    let mut after = before.clone();
    assert_eq!(after.event(event).text(), answer, "{event:?}");
    assert_eq!(after, expected, "{event:?}");
}

#[test]
fn thread_one_copies_to_its_own_copy() {
    let mut before = at(T8);
    before.control.thread.swap(0, 1);
    does(Event::Step(1), &before, "17 1 6 7", |ring| {
        ring.running[17] = 7;
        ring.control.thread[1].place = T9;
    });
    before.control.thread[1].place = T9;
    does(Event::Step(1), &before, "7 1 6", |ring| {
        ring.control.thread[1].line = Line::Copy(1);
        ring.control.thread[1].place = T10;
    });
}

#[test]
fn a_begin_sets_the_place_and_a_puts_item() {
    let mut before = at(P1);
    before.control.thread[0] = Thread::default();
    does(Event::Put(0, u32::MAX), &before, "1 0", |ring| {
        *me(ring) = Thread { place: P1, item: u32::MAX, ..Thread::default() };
    });
    does(Event::Take(0), &before, "1 0", |ring| {
        *me(ring) = Thread { place: T1, ..Thread::default() };
    });
}

#[test]
fn a_write_back_copies_its_line_and_frees_all_who_await_it() {
    let mut before = at(P6);
    before.running[..22]
        .copy_from_slice(&[1, 8, 31, 2, 0, 9, 32, 3, 1, 10, 33, 4, 0, 11, 34, 5, 6, 7, 1, 9, 5, 6]);
    for line in [Line::Cell(3), Line::Copy(1), Line::Tail] {
        let part = match line {
            Line::Cell(_) => 12..16,
            Line::Copy(_) => 17..18,
            _ => 18..20,
        };
        let answer = match line {
            Line::Cell(_) => "20 1 3",
            Line::Copy(_) => "20 2 1",
            _ => "20 3 0",
        };
        // Both threads await the line; then only one does, and then none.
        for awaited in [[line, line], [line, Line::Cell(0)], [Line::Copy(0), Line::None]] {
            before.control.thread[0].line = awaited[0];
            before.control.thread[1].line = awaited[1];
            does(Event::Back(line), &before, answer, |ring| {
                ring.kept[part.clone()].copy_from_slice(&before.running[part.clone()]);
                for thread in &mut ring.control.thread[..2] {
                    if thread.line == line {
                        thread.line = Line::None;
                    }
                }
            });
        }
    }
}

#[test]
fn a_cut_makes_all_threads_idle_and_reads_kept_alone() {
    let mut before = at(T10);
    before.kept[..20]
        .copy_from_slice(&[0, 8, 31, 2, 0, 5, 32, 3, 1, 10, 0, 4, 0, 6, 34, 5, 6, 1, 1, 17]);
    // Pass mark 6; index 5 is below it; 6 and 8 are queued.
    let left = [1, 8, 31, 6, 1, 9, 0, 6, 1, 10, 0, 6, 1, 6, 34, 6, 6, 6, 1, 9];
    does(Event::Cut, &before, "21 6 6 9 1 2", |ring| {
        ring.control.head = 6;
        ring.control.thread = Default::default();
        ring.running[..20].copy_from_slice(&left);
        ring.kept[..20].copy_from_slice(&left);
    });
}
