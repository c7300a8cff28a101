//! A run of events on a fresh ring, checked event by event, and the smallest script that fails.

use crate::account::Account;
use crate::answer::Answer;
use crate::coverage::Coverage;
use crate::fates::Fates;
use crate::machine::{event, setup, Control, Event, Thread};
use crate::memory::{length, tail_at};
use crate::recovery::{host_recovery, listing, queue};
use crate::sound::{image_sound, record_sound};
use crate::text::event_text;

#[derive(Clone, Copy, Debug, PartialEq, Eq)]
pub struct Shape {
    pub r: u32,
    pub n: u32,
    pub s: u32,
}

/// A record and its two images.
#[derive(Clone, Debug, PartialEq, Eq)]
pub struct Ring {
    pub control: Control,
    pub running: Vec<u32>,
    pub kept: Vec<u32>,
}

/// Numbers after the ring's own, which nothing may touch.
const PAST: [u32; 3] = [u32::MAX, 0, 711];

impl Ring {
    pub fn fresh(shape: Shape) -> Ring {
        Ring::fresh_and(shape, &[])
    }

    /// A fresh ring with these numbers past the end of both images.
    pub fn fresh_and(shape: Shape, past: &[u32]) -> Ring {
        let Shape { r, n, s } = shape;
        let mut running = vec![u32::MAX; length(r, n)];
        running.extend(past);
        let mut kept = running.clone();
        let (control, refused) = setup(r, n, s, &mut running, &mut kept);
        assert_eq!(refused, None, "setup of {shape:?}");
        Ring { control, running, kept }
    }

    pub fn event(&mut self, next: Event) -> Answer {
        let (control, answer) = event(self.control, next, &mut self.running, &mut self.kept);
        self.control = control;
        answer
    }

    /// Number and item of what recovery reads from kept.
    pub fn queue(&self) -> Vec<(u32, u32)> {
        queue(self.control.r, self.control.n, &self.kept)
    }
}

/// What was tried, so that a test can tell that it tried anything.
#[derive(Clone, Debug, Default)]
pub struct Tally {
    pub accepted: u64,
    pub refused: u64,
    pub cuts: u64,
    pub oks: u64,
    pub items: u64,
    pub closed: u64,
    /// Sums over the cuts of the confirmed puts of each fate.
    pub handed: u64,
    pub queued: u64,
    pub gone: u64,
    pub gone_now: u64,
    pub coverage: Coverage,
}

/// Plays the events and checks demand 3, soundness, and that a refusal changes nothing.
pub fn check(shape: Shape, events: &[Event], tally: &mut Tally) -> Result<(), String> {
    let mut ring = Ring::fresh_and(shape, &PAST);
    let mut account = Account::default();
    let mut fates = Fates::default();
    for (at, &next) in events.iter().enumerate() {
        one(&mut ring, next, &mut account, &mut fates, tally)
            .map_err(|what| format!("event {}, {}: {what}", at + 1, event_text(next)))?;
    }
    Ok(())
}

fn one(
    ring: &mut Ring,
    next: Event,
    account: &mut Account,
    fates: &mut Fates,
    tally: &mut Tally,
) -> Result<(), String> {
    let before = ring.clone();
    let answer = ring.event(next);
    if let Answer::Refused(_) = answer {
        tally.refused += 1;
        return ensure(*ring == before, || "a refusal changed something");
    }
    tally.accepted += 1;
    let Control { r, n, events, .. } = ring.control;
    ensure(events == before.control.events + 1, || "the event isn't counted once")?;
    ensure(record_sound(&ring.control), || "the record isn't sound")?;
    for (image, old) in [(&ring.running, &before.running), (&ring.kept, &before.kept)] {
        ensure(image_sound(r, n, events, image), || "an image isn't sound")?;
        ensure(image.len() == old.len(), || "an image changed its length")?;
        ensure(image[length(r, n)..] == PAST, || "a number past the end was touched")?;
    }
    match answer {
        Answer::Ok(..) => tally.oks += 1,
        Answer::Item(..) => tally.items += 1,
        Answer::Closed(..) => tally.closed += 1,
        _ => {}
    }
    if let Event::Step(t) = next {
        tally.coverage.count(&before.control, &ring.control, t, answer);
    }
    if next != Event::Cut {
        account.note(answer);
        return fates.note(next, answer);
    }
    tally.cuts += 1;
    let recovered = before.queue();
    account.cut(answer, &recovered)?;
    let count = fates.cut(answer, &recovered)?;
    tally.handed += u64::from(count.handed);
    tally.queued += u64::from(count.queued);
    tally.gone += u64::from(count.gone);
    tally.gone_now += u64::from(count.gone_now);
    ensure(count.gone_now <= n, || "more puts are gone than there are threads")?;
    ensure(ring.queue() == recovered, || "the recovered image has another queue")?;
    let idle = ring.control.thread == <[Thread; 8]>::default();
    ensure(idle, || "a thread isn't idle after the cut")?;
    let head_and_tail = (ring.control.head, ring.kept[tail_at(r, n)]);
    let Answer::Cut(_, head, tail, ..) = answer else {
        return Err(format!("a cut answers {answer:?}"));
    };
    ensure(head_and_tail == (head, tail), || "Head and Tail aren't those of the answer")?;
    same_as_cut(&before, ring, &recovered)
}

/// The listing and host recovery, on kept as it was before a cut, agree with the cut.
fn same_as_cut(before: &Ring, after: &Ring, recovered: &[(u32, u32)]) -> Result<(), String> {
    let Control { r, n, s, events, .. } = before.control;
    let mut room = vec![u32::MAX; r as usize + 1];
    let count = listing(r, n, s, events, &before.kept, &mut room);
    let mut items: Vec<u32> = recovered.iter().map(|&(_, item)| item).collect();
    ensure(count == Ok(items.len() as u32), || "the listing's count isn't the cut's")?;
    items.resize(room.len(), u32::MAX);
    ensure(room == items, || "the listing's items aren't the cut's")?;
    let mut bytes: Vec<u8> = before.kept.iter().flat_map(|number| number.to_le_bytes()).collect();
    let refused = host_recovery(r, n, s, events, &mut bytes);
    let kept: Vec<u8> = after.kept.iter().flat_map(|number| number.to_le_bytes()).collect();
    ensure(refused == 0 && bytes == kept, || "host recovery leaves another image than the cut")?;
    ensure(after.running == after.kept, || "the images differ after the cut")
}

/// Says what is wrong where something doesn't hold.
pub fn ensure<S: Into<String>>(holds: bool, otherwise: impl FnOnce() -> S) -> Result<(), String> {
    if holds {
        Ok(())
    } else {
        Err(otherwise().into())
    }
}

/// The fewest events, found by leaving events out, for which the test still fails.
pub fn smallest(events: &[Event], fails: impl Fn(&[Event]) -> bool) -> Vec<Event> {
    let mut events = events.to_vec();
    let mut chunk = events.len().div_ceil(2);
    while chunk > 0 {
        let mut at = 0;
        let before = events.len();
        while at < events.len() {
            let mut fewer = events.clone();
            fewer.drain(at..(at + chunk).min(events.len()));
            if fails(&fewer) {
                events = fewer;
            } else {
                at += chunk;
            }
        }
        // Single events are tried again until none of them can go.
        if chunk > 1 || events.len() == before {
            chunk /= 2;
        }
    }
    events
}

/// A run as `ringrun` reads it.
pub fn script(shape: Shape, events: &[Event]) -> String {
    let mut script = format!("ring {} {} {}\n", shape.r, shape.n, shape.s);
    for &event in events {
        script += &event_text(event);
        script += "\n";
    }
    script
}
