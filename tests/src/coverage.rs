//! Counts every row of the step table with every outcome, and lists the outcomes that must happen.

use crate::answer::Answer;
use crate::machine::*;
use std::collections::BTreeMap;

/// The place, the number of the answer, the next place, and why where two ways lead there.
pub type Outcome = (u32, u32, u32, &'static str);

/// Every outcome that the step table has.
pub const OUTCOMES: [Outcome; 39] = [
    (P1, 2, P2, ""),
    (P1, 2, P7, ""),
    (P2, 3, P3, ""),
    (P2, 3, P4, ""),
    (P2, 3, P8, "occupied"),
    (P2, 3, P8, "index above"),
    (P3, 4, P4, ""),
    (P3, 4, P8, ""),
    (P4, 5, P5, ""),
    (P4, 6, P8, ""),
    (P5, 7, P6, ""),
    (P6, 8, P6, ""),
    (P6, 9, IDLE, ""),
    (P7, 7, P10, ""),
    (P8, 4, P1, ""),
    (P8, 4, P9, "full"),
    (P8, 4, P9, "tries"),
    (P9, 11, P7, ""),
    (P10, 8, P10, ""),
    (P10, 10, IDLE, ""),
    (T1, 2, T2, ""),
    (T2, 3, T3, ""),
    (T2, 3, T4, ""),
    (T2, 3, T5, ""),
    (T2, 3, T6, ""),
    (T3, 6, T2, ""),
    (T3, 12, T8, ""),
    (T4, 6, T2, ""),
    (T4, 13, T6, ""),
    (T5, 6, T2, ""),
    (T5, 14, T6, ""),
    (T6, 15, T1, ""),
    (T6, 15, T7, ""),
    (T7, 16, T8, ""),
    (T8, 17, T9, ""),
    (T9, 7, T10, ""),
    (T10, 8, T10, ""),
    (T10, 18, IDLE, ""),
    (T10, 19, IDLE, ""),
];

/// How often each outcome happened.
#[derive(Clone, Debug, Default)]
pub struct Coverage(pub BTreeMap<Outcome, u64>);

impl Coverage {
    /// Counts one step of thread t from the records before and after it.
    pub fn count(&mut self, before: &Control, after: &Control, t: u32, answer: Answer) {
        let (old, new) = (before.thread[t as usize], after.thread[t as usize]);
        let why = match (old.place, new.place, answer) {
            (P2, P8, _) if new.cell.item != 0 => "occupied",
            (P2, P8, _) => "index above",
            (P8, P9, Answer::SawHead(_, n, head)) if head + before.r <= n => "full",
            (P8, P9, _) => "tries",
            _ => "",
        };
        let outcome = (old.place, answer.numbers().0, new.place, why);
        *self.0.entry(outcome).or_default() += 1;
    }

    /// The outcomes of the table that never happened.
    pub fn missing(&self) -> Vec<Outcome> {
        OUTCOMES.into_iter().filter(|outcome| !self.0.contains_key(outcome)).collect()
    }

    /// The outcomes that happened and aren't in the table.
    pub fn unknown(&self) -> Vec<Outcome> {
        self.0.keys().copied().filter(|outcome| !OUTCOMES.contains(outcome)).collect()
    }

    /// One line for each outcome.
    pub fn text(&self) -> String {
        let mut text = String::new();
        for (&(place, answer, next, why), count) in &self.0 {
            let (place, next) = (place_text(place), place_text(next));
            text += &format!("{place:>4} answers {answer:>2} to {next:<4} {why:<11} {count:>8}\n");
        }
        text
    }
}

fn place_text(place: u32) -> String {
    match place {
        IDLE => "idle".to_string(),
        P1..=P10 => format!("P{place}"),
        _ => format!("T{}", place - P10),
    }
}
