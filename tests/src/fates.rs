//! The other half of demand 3: every put confirmed OK is, at each cut, exactly one of handed out
//! by ITEM, still queued, or gone with a take that was cut off. A put is known by its number.

use crate::answer::Answer;
use crate::check::ensure;
use crate::machine::Event;
use std::collections::{BTreeMap, BTreeSet};

/// How many confirmed puts have each fate at a cut; `gone_now` are gone since this very cut.
#[derive(Clone, Copy, Debug, Default, PartialEq, Eq)]
pub struct Count {
    pub handed: u32,
    pub queued: u32,
    pub gone: u32,
    pub gone_now: u32,
}

#[derive(Clone, Debug, Default)]
pub struct Fates {
    /// Which threads are in a take, and the number that each take holds.
    taking: [bool; 8],
    holding: [Option<u32>; 8],
    /// Number and item of what the last cut queued and of what landed since.
    landed: BTreeMap<u32, u32>,
    /// Number and item of every OK and of every ITEM, and the numbers gone.
    confirmed: BTreeMap<u32, u32>,
    handed: BTreeMap<u32, u32>,
    gone: BTreeSet<u32>,
    /// A CLOSED was answered.
    closed: bool,
}

impl Fates {
    /// Hears an accepted event other than a cut, and its answer.
    pub fn note(&mut self, event: Event, answer: Answer) -> Result<(), String> {
        if let (Event::Put(t, _) | Event::Take(t), Answer::Begun(_)) = (event, answer) {
            self.taking[t as usize] = matches!(event, Event::Take(_));
        }
        match answer {
            Answer::Drew(t, number) if self.taking[t as usize] => {
                self.holding[t as usize] = Some(number);
            }
            // Back to T1: the take holds this number no longer.
            Answer::SawTail(t, number, value) if value > number + 1 => {
                self.holding[t as usize] = None;
            }
            Answer::Empty(t, _) => self.holding[t as usize] = None,
            Answer::Landed(_, number, _, item) => {
                let before = self.landed.insert(number, item);
                ensure(before.is_none(), || format!("a second put landed under number {number}"))?;
            }
            Answer::Ok(_, number, item) => {
                let landed = self.landed.get(&number) == Some(&item);
                ensure(landed, || format!("OK of {number} {item}, which never landed"))?;
                let before = self.confirmed.insert(number, item);
                ensure(before.is_none(), || format!("a second OK with number {number}"))?;
            }
            Answer::Item(t, number, item) => {
                self.holding[t as usize] = None;
                let landed = self.landed.get(&number) == Some(&item);
                ensure(landed, || format!("ITEM of {number} {item}, which never landed"))?;
                let before = self.handed.insert(number, item);
                ensure(before.is_none(), || format!("a second ITEM with number {number}"))?;
            }
            Answer::Closed(..) => self.closed = true,
            _ => {}
        }
        Ok(())
    }

    /// Judges every confirmed put at a cut that left this queue of numbers and items.
    pub fn cut(&mut self, answer: Answer, queue: &[(u32, u32)]) -> Result<Count, String> {
        let Answer::Cut(mark, _, _, closed, _) = answer else {
            return Err(format!("{answer:?} is no cut"));
        };
        ensure(!self.closed || closed == 1, || "CLOSED was answered, and this cut is open")?;
        let gone_before = self.gone.clone();
        for number in self.holding.into_iter().flatten() {
            let first = number >= mark || self.gone.insert(number);
            ensure(first, || format!("number {number} is gone twice"))?;
        }
        let mut count = Count::default();
        for (&number, &item) in &self.confirmed {
            let handed = self.handed.get(&number) == Some(&item);
            let queued = queue.contains(&(number, item));
            let gone = self.gone.contains(&number);
            let one = handed as u32 + queued as u32 + gone as u32 == 1;
            ensure(one, || format!("put {number}: handed {handed}, queued {queued}, gone {gone}"))?;
            let gone_now = gone && !gone_before.contains(&number);
            let ahead = queue.iter().all(|&(other, _)| number < other);
            ensure(!gone_now || ahead, || {
                format!("put {number} is gone, but not ahead of all queued")
            })?;
            count.handed += handed as u32;
            count.queued += queued as u32;
            count.gone += gone as u32;
            count.gone_now += gone_now as u32;
        }
        self.taking = [false; 8];
        self.holding = [None; 8];
        self.landed = queue.iter().copied().collect();
        Ok(count)
    }
}
