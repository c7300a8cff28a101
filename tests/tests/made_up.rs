//! Any record, any memory, any numbers: every entry ends, refuses by the first number of the
//! page's order that a second writing of the page finds broken, changes nothing when it refuses,
//! and keeps record and images sound when it accepts.

use winterbeam_tests::answer::Answer;
use winterbeam_tests::check::Ring;
use winterbeam_tests::machine::*;
use winterbeam_tests::random::Random;
use winterbeam_tests::recovery::{host_recovery, listing};

const TRIES: u32 = 300_000;

/// All refusal numbers that the page gives for an event, in no order. Wide numbers, no wrapping.
fn broken(ring: &Ring, event: Event) -> Vec<u32> {
    let Control { r, n, s, events, head, thread } = ring.control;
    let mut broken = Vec::new();
    let mut bad_record = r == 0 || r > 64 || n == 0 || n > 8 || s == 0 || s > 255;
    bad_record |= events > 1_000_000 || head > events;
    for (t, thread) in thread.iter().enumerate() {
        let (kind, place) = thread.line.numbers();
        let cell = thread.cell;
        let fields = [thread.item, thread.number, cell.safe, cell.index, cell.item, cell.mark];
        let all_zero = fields == [0; 6] && [thread.place, thread.tries, kind] == [0; 3];
        let number_fits = thread.number < events || thread.number == 0 && thread.place % 10 == 1;
        let item_fits = thread.place > 10 || thread.item > 0;
        let line_fits = kind == 0 || kind == 1 && place < r || kind == 2 && place < n || kind == 3;
        let busy_fits = thread.place > 0
            && thread.place <= 20
            && (t as u32) < n
            && thread.tries < s
            && number_fits
            && item_fits
            && line_fits;
        bad_record |= !(all_zero || busy_fits);
    }
    if bad_record {
        broken.push(8);
    }
    let needed = 4 * u64::from(r) + u64::from(n) + 2;
    for image in [&ring.running, &ring.kept] {
        if (image.len() as u64) < needed {
            broken.push(10);
        } else if !bad_record && bad_image(r, n, events, image) {
            broken.push(12);
        }
    }
    if events == 1_000_000 {
        broken.push(7);
    }
    let place = |t: u32| thread.get(t as usize).map_or(0, |thread| thread.place);
    let rules: &[(bool, u32)] = match event {
        Event::Put(t, x) => &[(t >= n, 2), (place(t) != 0, 4), (x == 0, 6)],
        Event::Take(t) => &[(t >= n, 2), (place(t) != 0, 4)],
        Event::Step(t) => &[(t >= n, 2), (place(t) == 0, 5)],
        Event::Back(Line::Cell(j)) => &[(j >= r, 3)],
        Event::Back(Line::Copy(t)) => &[(t >= n, 3)],
        Event::Back(Line::None) => &[(true, 3)],
        Event::Back(Line::Tail) | Event::Cut => &[],
    };
    broken.extend(rules.iter().filter(|rule| rule.0).map(|rule| rule.1));
    broken
}

fn bad_image(r: u32, n: u32, events: u32, image: &[u32]) -> bool {
    let (cells, rest) = image.split_at(4 * r as usize);
    let bad_cell = |cell: &[u32]| {
        let occupied_too_far = cell[2] > 0 && cell[1] >= events;
        let blank_too_far = cell[2] == 0 && cell[1] >= events + r;
        cell[0] > 1 || cell[3] > events || occupied_too_far || blank_too_far
    };
    let [copies, closed, tail] =
        [&rest[..n as usize], &rest[n as usize..], &rest[n as usize + 1..]];
    cells.chunks(4).any(bad_cell)
        || copies.iter().any(|&copy| copy > events)
        || closed[0] > 1
        || tail[0] > events
}

/// "Order: 9, then 1 (setup) or 8, then 10, 12, 7, 2, 3, 4 or 5, 6, 11."
fn first(broken: &[u32]) -> u32 {
    let order = [8, 10, 12, 7, 2, 3, 4, 5, 6, 11];
    order.into_iter().find(|number| broken.contains(number)).unwrap_or(0)
}

/// A sound ring that no run need reach.
fn sound(random: &mut Random) -> Ring {
    let r = if random.chance(80) { random.within(1, 4) } else { random.within(1, 64) };
    let n = random.within(1, 8);
    let s = if random.chance(80) { random.within(1, 3) } else { random.within(1, 255) };
    let events = random.pick(&[1, 2, 3, 8, 8, 20, 20, 999_999]);
    let mut control = Control::fresh(r, n, s);
    control.events = events;
    control.head = random.within(0, events);
    let past = random.below(3) as usize;
    let [running, kept] = [0; 2].map(|_| image(random, r, n, events, past));
    for t in 0..n as usize {
        if random.chance(25) {
            continue;
        }
        let number = random.below(events);
        let at = (number % r) as usize * 4;
        let cell = match random.chance(60) {
            true => [0, 1, 2, 3].map(|k| running[at + k]),
            false => [0; 4].map(|_| random.pick(&[0, 1, 2, u32::MAX])),
        };
        let place = random.within(P1, T10);
        let taken = random.pick(&[0, u32::MAX]);
        let lines =
            [Line::Cell(random.below(r)), Line::Copy(random.below(n)), Line::Tail, Line::None];
        control.thread[t] = Thread {
            place,
            item: if place <= P10 { random.within(1, 3) } else { taken },
            number,
            cell: Cell { safe: cell[0], index: cell[1], item: cell[2], mark: cell[3] },
            tries: random.below(s),
            line: random.pick(&[lines[0], lines[1], lines[2], lines[3], lines[3], lines[3]]),
        };
    }
    Ring { control, running, kept }
}

fn image(random: &mut Random, r: u32, n: u32, events: u32, past: usize) -> Vec<u32> {
    let mut image = Vec::new();
    for _ in 0..r {
        let item = random.pick(&[0, 0, 1, u32::MAX]);
        let index = random.below(if item == 0 { events + r } else { events });
        image.extend([random.below(2), index, item, random.within(0, events)]);
    }
    for _ in 0..n {
        image.push(random.within(0, events));
    }
    image.extend([random.below(2), random.within(0, events)]);
    image.extend(vec![u32::MAX; past]);
    image
}

/// Any number; mostly one beside a limit.
fn any(random: &mut Random, ring: &Ring) -> u32 {
    let Control { r, n, s, events, .. } = ring.control;
    let near = random.pick(&[0, 1, 8, 11, 20, 64, 255, 1_000_000, r, n, s, events, u32::MAX]);
    match random.below(5) {
        0 => near.wrapping_sub(1),
        1 => near.wrapping_add(1),
        2 => random.draw() as u32,
        _ => near,
    }
}

/// Puts any number somewhere into the ring, or makes an image shorter.
fn spoil(random: &mut Random, ring: &mut Ring) {
    let value = any(random, ring);
    let length = random.below(ring.kept.len() as u32 + 1) as usize;
    let t = random.below(8) as usize;
    let thread = &mut ring.control.thread[t];
    match random.below(18) {
        0 => ring.control.r = value,
        1 => ring.control.n = value,
        2 => ring.control.s = value,
        3 => ring.control.events = value,
        4 => ring.control.head = value,
        5 => thread.place = value,
        6 => thread.item = value,
        7 => thread.number = value,
        8 => thread.cell.safe = value,
        9 => thread.cell.mark = value,
        10 => thread.tries = value,
        11 => thread.line = Line::Cell(value),
        12 => thread.line = Line::Copy(value),
        13 => ring.running.truncate(length),
        14 => ring.kept.truncate(length),
        15 => *thread = Thread::default(),
        way => {
            let image = if way == 16 { &mut ring.running } else { &mut ring.kept };
            if let Some(number) = image.get_mut(length) {
                *number = value;
            }
        }
    }
}

fn any_event(random: &mut Random, ring: &Ring) -> Event {
    let small = random.below(ring.control.n.clamp(1, 8));
    let t = if random.chance(80) { small } else { any(random, ring) };
    let x = any(random, ring);
    match random.below(12) {
        0 => Event::Put(t, x),
        1 => Event::Take(t),
        2 => Event::Back(Line::Cell(t)),
        3 => Event::Back(Line::Copy(t)),
        4 => Event::Back(random.pick(&[Line::Tail, Line::None])),
        5 => Event::Cut,
        _ => Event::Step(t),
    }
}

#[test]
fn any_record_any_memory_any_event() {
    let mut random = Random(20_261_115);
    let (mut accepted, mut refused, mut places) = (0, [0; 13], [0; 21]);
    for _ in 0..TRIES {
        let mut before = sound(&mut random);
        for _ in 0..random.pick(&[0, 0, 1, 1, 3]) {
            spoil(&mut random, &mut before);
        }
        let event = any_event(&mut random, &before);
        let mut after = before.clone();
        let answer = after.event(event);
        let expected = first(&broken(&before, event));
        if let Answer::Refused(number) = answer {
            assert_eq!(number, expected, "{event:?} on {before:?}");
            assert_eq!(after, before, "{event:?}");
            refused[number as usize] += 1;
            continue;
        }
        assert_eq!(expected, 0, "{event:?} on {before:?}");
        assert_eq!(after.control.events, before.control.events + 1);
        let now = broken(&after, Event::Cut);
        assert!(now.is_empty() || now == [7], "{event:?} on {before:?} leaves {after:?}");
        accepted += 1;
        if let Event::Step(t) = event {
            places[before.control.thread[t as usize].place as usize] += 1;
        }
    }
    println!("accepted {accepted}, of these steps at each place {places:?}, refused {refused:?}");
    assert!(accepted >= TRIES / 5);
    assert!(places[1..].iter().all(|&count| count >= 1000));
    assert!([2, 3, 4, 5, 6, 7, 8, 10, 12].iter().all(|&number| refused[number] >= 50));
}

#[test]
fn any_memory_at_listing_and_host_recovery() {
    let mut random = Random(20_261_116);
    let (mut accepted, mut refused) = (0, [0; 13]);
    for _ in 0..TRIES {
        let mut ring = sound(&mut random);
        ring.control.thread = Default::default();
        ring.control.head = 0;
        for _ in 0..random.pick(&[0, 1, 3]) {
            spoil(&mut random, &mut ring);
        }
        let Control { r, n, s, events, .. } = ring.control;
        let kept = ring.kept.clone();
        // The same rules as for an event, with kept for both images and no thread to judge.
        let lent = Control { events, ..Control::fresh(r, n, s) };
        let judged = Ring { control: lent, running: kept.clone(), kept: kept.clone() };
        let mut broken: Vec<u32> = broken(&judged, Event::Cut);
        broken.retain(|&number| number != 7);
        let expected = first(&broken);
        let mut bytes: Vec<u8> = kept.iter().flat_map(|number| number.to_le_bytes()).collect();
        let before = bytes.clone();
        assert_eq!(host_recovery(r, n, s, events, &mut bytes), expected);
        assert!(expected == 0 || bytes == before);

        let mut room = vec![7; random.below(70) as usize];
        if room.len() < r as usize {
            broken.push(11);
        }
        let given = listing(r, n, s, events, &kept, &mut room);
        assert_eq!(given.err().unwrap_or(0), first(&broken));
        let count = given.unwrap_or(0) as usize;
        assert!(room[count..].iter().all(|&number| number == 7));
        if given.is_ok() {
            accepted += 1;
        } else {
            refused[first(&broken) as usize] += 1;
        }
    }
    println!("accepted {accepted}, refused {refused:?}");
    assert!(accepted >= TRIES / 5);
    assert!([8, 10, 11, 12].iter().all(|&number| refused[number] >= 1000));
}
