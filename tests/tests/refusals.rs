//! The order of the refusals: every entry with every set of faults at once. The number expected is
//! the first in the page's order among those that the entry gives; a refusal changes nothing.

use winterbeam_tests::check::{Ring, Shape};
use winterbeam_tests::machine::*;
use winterbeam_tests::memory::length;
use winterbeam_tests::recovery::{host_recovery, listing};

/// "Order: 9, then 1 (setup) or 8, then 10, 12, 7, 2, 3, 4 or 5, 6, 11."
const ORDER: [u32; 12] = [9, 1, 8, 10, 12, 7, 2, 3, 4, 5, 6, 11];

#[derive(Clone, Copy, Debug, PartialEq, Eq)]
enum Fault {
    /// The setup's numbers, or the record, or the numbers that stand for it: the how-manieth way.
    Numbers(usize),
    RunningShort,
    KeptShort,
    RunningUnsound,
    KeptUnsound,
    AtLimit,
    ThreadTooHigh(u32),
    LineTooHigh(Line),
    Busy,
    Idle,
    NoItem,
    RoomShort,
}

use Fault::*;

impl Fault {
    fn number(self, entry: Entry) -> u32 {
        match self {
            Numbers(_) if entry == Entry::Setup => 1,
            Numbers(_) => 8,
            RunningShort | KeptShort => 10,
            RunningUnsound | KeptUnsound => 12,
            AtLimit => 7,
            ThreadTooHigh(_) => 2,
            LineTooHigh(_) => 3,
            Busy => 4,
            Idle => 5,
            NoItem => 6,
            RoomShort => 11,
        }
    }
}

#[derive(Clone, Copy, Debug, PartialEq, Eq)]
enum Entry {
    Setup,
    Put,
    Take,
    Step,
    Back,
    Cut,
    Listing,
    Host,
}

impl Entry {
    /// The refusal numbers that the entry can give at all.
    fn gives(self) -> &'static [u32] {
        match self {
            Entry::Setup => &[1, 10],
            Entry::Put => &[2, 4, 6, 7, 8, 10, 12],
            Entry::Take => &[2, 4, 7, 8, 10, 12],
            Entry::Step => &[2, 5, 7, 8, 10, 12],
            Entry::Back => &[3, 7, 8, 10, 12],
            Entry::Cut => &[7, 8, 10, 12],
            Entry::Listing => &[8, 10, 11, 12],
            Entry::Host => &[8, 10, 12],
        }
    }

    /// The faults that can be made there, of each kind one or more ways.
    fn faults(self) -> Vec<Vec<Fault>> {
        let numbers = (0..ways(self)).map(Numbers).collect();
        let threads: Vec<Fault> = [2, 7, 8, u32::MAX].map(ThreadTooHigh).to_vec();
        let lines = [Line::Cell(3), Line::Cell(u32::MAX), Line::Copy(2), Line::Copy(u32::MAX)];
        let lines: Vec<Fault> = lines.map(LineTooHigh).to_vec();
        let kept = [vec![KeptShort], vec![KeptUnsound], vec![AtLimit]];
        let both = [vec![RunningShort], vec![RunningUnsound]];
        let images = [vec![numbers], both.to_vec(), kept.to_vec()].concat();
        let kept = [vec![(0..ways(self)).map(Numbers).collect()], kept.to_vec()].concat();
        match self {
            Entry::Put => [images, vec![threads, vec![Busy], vec![NoItem]]].concat(),
            Entry::Take => [images, vec![threads, vec![Busy]]].concat(),
            Entry::Step => [images, vec![threads, vec![Idle]]].concat(),
            Entry::Back => [images, vec![lines]].concat(),
            Entry::Setup | Entry::Cut => images,
            Entry::Listing => [kept, vec![vec![RoomShort]]].concat(),
            Entry::Host => kept,
        }
    }
}

/// R, n and S out of range, each on both sides.
const OUT_OF_RANGE: [[u32; 3]; 9] = [
    [0, 2, 4],
    [65, 2, 4],
    [u32::MAX, 2, 4],
    [3, 0, 4],
    [3, 9, 4],
    [3, u32::MAX, 4],
    [3, 2, 0],
    [3, 2, 256],
    [3, 2, u32::MAX],
];

/// How many ways there are to have unsound numbers.
fn ways(entry: Entry) -> usize {
    match entry {
        Entry::Setup => 9,
        Entry::Listing | Entry::Host => 11,
        _ => 15,
    }
}

/// Makes the record unsound, one of fifteen ways.
fn spoil(control: &mut Control, way: usize) {
    match way {
        0..9 => [control.r, control.n, control.s] = OUT_OF_RANGE[way],
        9 => control.events = 1_000_001,
        10 => control.events = u32::MAX,
        11 => control.head = u32::MAX,
        12 => control.thread[1].number = 1,
        13 => control.thread[7].place = P1,
        _ => control.thread[0].line = Line::Cell(3),
    }
}

/// Everything that an entry is lent and told.
#[derive(Clone, Debug, PartialEq)]
struct Call {
    ring: Ring,
    t: u32,
    line: Line,
    item: u32,
    room: Vec<u32>,
}

/// A call that is accepted, but for these faults: R 3, n 2, S 4, thread 0 busy, thread 1 idle.
fn call(entry: Entry, faults: &[Fault]) -> Call {
    let mut ring = Ring::fresh(Shape { r: 3, n: 2, s: 4 });
    ring.control.events = 10;
    ring.control.thread[0] = Thread { place: P5, item: 7, number: 2, ..Thread::default() };
    let t = if entry == Entry::Step { 0 } else { 1 };
    let mut call = Call { ring, t, line: Line::Cell(2), item: 9, room: vec![44; 3] };
    for &fault in faults {
        let ring = &mut call.ring;
        match fault {
            Numbers(way) => spoil(&mut ring.control, way),
            RunningShort => ring.running.truncate(length(3, 2) - 1),
            KeptShort => ring.kept.truncate(length(3, 2) - 1),
            RunningUnsound => ring.running[0] = 2,
            KeptUnsound => ring.kept[4] = 2,
            AtLimit if ring.control.events == 10 => ring.control.events = 1_000_000,
            AtLimit => {}
            ThreadTooHigh(t) => call.t = t,
            LineTooHigh(line) => call.line = line,
            Busy => call.t = 0,
            Idle => call.t = call.t.max(1),
            NoItem => call.item = 0,
            RoomShort => call.room.truncate(2),
        }
    }
    call
}

impl Call {
    /// Makes the call. Gives its refusal number, or 0, and checks a refused setup's record.
    fn make(&mut self, entry: Entry) -> u32 {
        let Control { r, n, s, events, .. } = self.ring.control;
        let event = match entry {
            Entry::Setup => {
                let Ring { running, kept, .. } = &mut self.ring;
                let (control, refused) = setup(r, n, s, running, kept);
                let made = if refused.is_some() { [0; 3] } else { [r, n, s] };
                assert_eq!(control, Control::fresh(made[0], made[1], made[2]));
                return refused.unwrap_or(0);
            }
            Entry::Listing => {
                let given = listing(r, n, s, events, &self.ring.kept, &mut self.room);
                return given.err().unwrap_or(0);
            }
            Entry::Host => {
                let kept = &mut self.ring.kept;
                let mut bytes: Vec<u8> = kept.iter().flat_map(|n| n.to_le_bytes()).collect();
                let before = bytes.clone();
                let given = host_recovery(r, n, s, events, &mut bytes);
                assert!(given == 0 || bytes == before);
                return given;
            }
            Entry::Put => Event::Put(self.t, self.item),
            Entry::Take => Event::Take(self.t),
            Entry::Step => Event::Step(self.t),
            Entry::Back => Event::Back(self.line),
            Entry::Cut => Event::Cut,
        };
        match self.ring.event(event).numbers() {
            (0, values) => values[0],
            _ => 0,
        }
    }
}

/// Every choice of at most one fault of each kind.
fn choices(kinds: &[Vec<Fault>]) -> Vec<Vec<Fault>> {
    let Some((first, rest)) = kinds.split_first() else {
        return vec![vec![]];
    };
    let mut all = Vec::new();
    for choice in choices(rest) {
        for &fault in first {
            all.push([&[fault], choice.as_slice()].concat());
        }
        all.push(choice);
    }
    all
}

/// A busy thread too high is an unsound record, so these two don't go together.
fn possible(faults: &[Fault]) -> bool {
    let too_high = faults.iter().any(|fault| matches!(fault, ThreadTooHigh(_)));
    !(too_high && faults.contains(&Busy))
}

/// Tries every choice of faults at the entry; gives how many there were.
fn try_all(entry: Entry) -> usize {
    let mut tried = 0;
    let mut given = Vec::new();
    for faults in choices(&entry.faults()).into_iter().filter(|faults| possible(faults)) {
        let broken: Vec<u32> = faults.iter().map(|fault| fault.number(entry)).collect();
        let counts = |number: &&u32| broken.contains(number) && entry.gives().contains(number);
        let expected = ORDER.iter().find(counts).copied().unwrap_or(0);
        let before = call(entry, &faults);
        let mut after = before.clone();
        assert_eq!(after.make(entry), expected, "{entry:?} with {faults:?}");
        assert!(expected == 0 || after == before, "{entry:?} with {faults:?} changed something");
        tried += 1;
        given.push(expected);
    }
    given.sort();
    given.dedup();
    assert_eq!(given[0], 0, "{entry:?} accepts something");
    assert_eq!(given[1..], *entry.gives(), "{entry:?} gives each of its numbers");
    tried
}

#[test]
fn setup_knows_only_1_and_10() {
    assert_eq!(try_all(Entry::Setup), 10 * 32);
}

#[test]
fn put_in_its_order() {
    assert_eq!(try_all(Entry::Put), 16 * 32 * (5 + 1) * 2);
}

#[test]
fn take_in_its_order() {
    assert_eq!(try_all(Entry::Take), 16 * 32 * (5 + 1));
}

#[test]
fn step_in_its_order() {
    assert_eq!(try_all(Entry::Step), 16 * 32 * 5 * 2);
}

#[test]
fn write_back_in_its_order() {
    assert_eq!(try_all(Entry::Back), 16 * 32 * 5);
}

#[test]
fn cut_in_its_order() {
    assert_eq!(try_all(Entry::Cut), 16 * 32);
}

#[test]
fn listing_in_its_order_never_7() {
    assert_eq!(try_all(Entry::Listing), 12 * 8 * 2);
}

#[test]
fn host_recovery_in_its_order_never_7() {
    assert_eq!(try_all(Entry::Host), 12 * 8);
}
