//! The step table: a step does one row.

use crate::answer::Answer;
use crate::machine::*;
use crate::memory::{cell, closed_at, copy_at, put_cell, tail_at};

/// One step of thread t, which is busy. What no row names stays as it is.
pub fn step(control: &mut Control, t: u32, running: &mut [u32]) -> Answer {
    let mut me = control.thread[t as usize];
    let answer = match me.place {
        P1..=P10 => put_row(control, &mut me, t, running),
        _ => take_row(control, &mut me, t, running),
    };
    control.thread[t as usize] = me;
    answer
}

fn put_row(control: &Control, me: &mut Thread, t: u32, running: &mut [u32]) -> Answer {
    let (closed, tail) = (closed_at(control.r, control.n), tail_at(control.r, control.n));
    let n = me.number;
    let j = n % control.r;
    match me.place {
        P1 => {
            me.number = running[tail];
            running[tail] += 1;
            me.cell = Cell::default();
            me.place = if running[closed] == 1 { P7 } else { P2 };
            Answer::Drew(t, me.number)
        }
        P2 => {
            me.cell = cell(running, j);
            let free = me.cell.item == 0 && me.cell.index <= n;
            me.place = match (free, me.cell.safe) {
                (true, 1) => P4,
                (true, _) => P3,
                (false, _) => P8,
            };
            Answer::Looked(t, n, j)
        }
        P3 => {
            me.place = if control.head <= n { P4 } else { P8 };
            Answer::SawHead(t, n, control.head)
        }
        P4 => {
            let now = cell(running, j);
            if now == me.cell {
                put_cell(running, j, Cell { safe: 1, index: n, item: me.item, mark: now.mark });
                me.place = P5;
                Answer::Landed(t, n, j, me.item)
            } else {
                me.place = P8;
                Answer::Missed(t, n, j)
            }
        }
        P5 => {
            me.line = Line::Cell(j);
            me.place = P6;
            Answer::Asked(t, n)
        }
        P6 => wait(me, t, Answer::Ok(t, n, me.item)),
        P7 => {
            me.line = Line::Tail;
            me.place = P10;
            Answer::Asked(t, n)
        }
        P8 => {
            me.tries += 1;
            if control.head + control.r <= n || me.tries == control.s {
                me.tries = control.s - 1;
                me.place = P9;
            } else {
                me.place = P1;
            }
            Answer::SawHead(t, n, control.head)
        }
        P9 => {
            running[closed] = 1;
            me.place = P7;
            Answer::SetClosed(t, n)
        }
        _ => wait(me, t, Answer::Closed(t, n)),
    }
}

fn take_row(control: &mut Control, me: &mut Thread, t: u32, running: &mut [u32]) -> Answer {
    let tail = tail_at(control.r, control.n);
    let n = me.number;
    let j = n % control.r;
    match me.place {
        T1 => {
            me.number = control.head;
            control.head += 1;
            me.cell = Cell::default();
            me.place = T2;
            Answer::Drew(t, me.number)
        }
        T2 => {
            me.cell = cell(running, j);
            me.place = if me.cell.index > n {
                T6
            } else if me.cell.item == 0 {
                T5
            } else if me.cell.index == n {
                T3
            } else {
                T4
            };
            Answer::Looked(t, n, j)
        }
        T3..=T5 => {
            let now = cell(running, j);
            if now != me.cell {
                me.place = T2;
                return Answer::Missed(t, n, j);
            }
            let emptied = Cell { safe: now.safe, index: n + control.r, item: 0, mark: n + 1 };
            match me.place {
                T3 => {
                    put_cell(running, j, emptied);
                    me.item = now.item;
                    me.place = T8;
                    Answer::Took(t, n, j, now.item)
                }
                T4 => {
                    put_cell(running, j, Cell { safe: 0, ..now });
                    me.place = T6;
                    Answer::Flagged(t, n, j)
                }
                _ => {
                    put_cell(running, j, emptied);
                    me.place = T6;
                    Answer::Passed(t, n, j)
                }
            }
        }
        T6 => {
            me.place = if running[tail] <= n + 1 { T7 } else { T1 };
            Answer::SawTail(t, n, running[tail])
        }
        T7 => {
            running[tail] = running[tail].max(control.head);
            me.place = T8;
            Answer::Lifted(t, n, running[tail])
        }
        T8 => {
            running[copy_at(control.r, t)] = n + 1;
            me.place = T9;
            Answer::Copied(t, n, n + 1)
        }
        T9 => {
            me.line = Line::Copy(t);
            me.place = T10;
            Answer::Asked(t, n)
        }
        _ if me.item == 0 => wait(me, t, Answer::Empty(t, n)),
        _ => wait(me, t, Answer::Item(t, n, me.item)),
    }
}

/// Awaiting: nothing changes. Else the thread goes idle with its last answer.
fn wait(me: &mut Thread, t: u32, last: Answer) -> Answer {
    if me.line != Line::None {
        return Answer::Waiting(t, me.number);
    }
    *me = Thread::default();
    last
}
