//! The answers, and the number and values of each.

use crate::machine::Line;

/// Values in this order: T the thread, N its number, J the cell's place, then V the value read or
/// left, or X the item.
#[derive(Clone, Copy, Debug, PartialEq, Eq)]
pub enum Answer {
    /// The refusal number.
    Refused(u32),
    /// T
    Begun(u32),
    /// T N
    Drew(u32, u32),
    /// T N J
    Looked(u32, u32, u32),
    /// T N V
    SawHead(u32, u32, u32),
    /// T N J X
    Landed(u32, u32, u32, u32),
    /// T N J
    Missed(u32, u32, u32),
    /// T N
    Asked(u32, u32),
    /// T N
    Waiting(u32, u32),
    /// T N X
    Ok(u32, u32, u32),
    /// T N
    Closed(u32, u32),
    /// T N
    SetClosed(u32, u32),
    /// T N J X
    Took(u32, u32, u32, u32),
    /// T N J
    Flagged(u32, u32, u32),
    /// T N J
    Passed(u32, u32, u32),
    /// T N V
    SawTail(u32, u32, u32),
    /// T N V
    Lifted(u32, u32, u32),
    /// T N V
    Copied(u32, u32, u32),
    /// T N X
    Item(u32, u32, u32),
    /// T N
    Empty(u32, u32),
    /// The line.
    Written(Line),
    /// Pass mark, Head, Tail, closed, count.
    Cut(u32, u32, u32, u32, u32),
}

impl Answer {
    /// The answer's number and its values.
    pub fn numbers(&self) -> (u32, Vec<u32>) {
        match *self {
            Answer::Refused(k) => (0, vec![k]),
            Answer::Begun(t) => (1, vec![t]),
            Answer::Drew(t, n) => (2, vec![t, n]),
            Answer::Looked(t, n, j) => (3, vec![t, n, j]),
            Answer::SawHead(t, n, v) => (4, vec![t, n, v]),
            Answer::Landed(t, n, j, x) => (5, vec![t, n, j, x]),
            Answer::Missed(t, n, j) => (6, vec![t, n, j]),
            Answer::Asked(t, n) => (7, vec![t, n]),
            Answer::Waiting(t, n) => (8, vec![t, n]),
            Answer::Ok(t, n, x) => (9, vec![t, n, x]),
            Answer::Closed(t, n) => (10, vec![t, n]),
            Answer::SetClosed(t, n) => (11, vec![t, n]),
            Answer::Took(t, n, j, x) => (12, vec![t, n, j, x]),
            Answer::Flagged(t, n, j) => (13, vec![t, n, j]),
            Answer::Passed(t, n, j) => (14, vec![t, n, j]),
            Answer::SawTail(t, n, v) => (15, vec![t, n, v]),
            Answer::Lifted(t, n, v) => (16, vec![t, n, v]),
            Answer::Copied(t, n, v) => (17, vec![t, n, v]),
            Answer::Item(t, n, x) => (18, vec![t, n, x]),
            Answer::Empty(t, n) => (19, vec![t, n]),
            Answer::Written(line) => {
                let (kind, place) = line.numbers();
                (20, vec![kind, place])
            }
            Answer::Cut(mark, head, tail, closed, count) => {
                (21, vec![mark, head, tail, closed, count])
            }
        }
    }

    /// The number and the values as words with one space between.
    pub fn text(&self) -> String {
        let (number, values) = self.numbers();
        let mut text = number.to_string();
        for value in values {
            text += &format!(" {value}");
        }
        text
    }
}
