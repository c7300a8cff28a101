//! Both sides of each limit: of setup, of each part of soundness, of each number told to an entry,
//! of lengths, and of the run.

use winterbeam_tests::answer::Answer;
use winterbeam_tests::check::{Ring, Shape};
use winterbeam_tests::machine::*;
use winterbeam_tests::memory::length;
use winterbeam_tests::recovery::{host_recovery, listing, read_cell, Image};
use winterbeam_tests::sound::record_sound;

const SHAPE: Shape = Shape { r: 3, n: 2, s: 4 };

/// R 3, n 2, S 4, ten events, all idle.
fn ten_events() -> Ring {
    let mut ring = Ring::fresh(SHAPE);
    ring.control.events = 10;
    ring
}

/// The refusal number of the event after `prepare`, or 0; a refusal must change nothing.
fn refusal(event: Event, prepare: impl Fn(&mut Ring)) -> u32 {
    let mut before = ten_events();
    prepare(&mut before);
    let mut after = before.clone();
    match after.event(event) {
        Answer::Refused(number) => {
            assert_eq!(after, before);
            number
        }
        _ => {
            assert_ne!(after, before, "an accepted event is at least counted");
            0
        }
    }
}

#[test]
fn setup_makes_a_fresh_ring_and_no_more() {
    let (mut running, mut kept) = (vec![9; 17], vec![8; 16]);
    let (control, refused) = setup(3, 2, 255, &mut running, &mut kept);
    assert_eq!((control, refused), (Control { r: 3, n: 2, s: 255, ..Control::default() }, None));
    assert_eq!(running, [1, 0, 0, 0, 1, 1, 0, 0, 1, 2, 0, 0, 0, 0, 0, 0, 9]);
    assert_eq!(kept, running[..16]);
}

#[test]
fn setup_ranges() {
    let mut tried = 0;
    let ranges = [(0, 1), (1, 0), (64, 0), (65, 1), (u32::MAX, 1)];
    for (r, r_refused) in ranges {
        for (n, n_refused) in [(0, 1), (1, 0), (8, 0), (9, 1), (u32::MAX, 1)] {
            for (s, s_refused) in [(0, 1), (1, 0), (255, 0), (256, 1), (u32::MAX, 1)] {
                let (mut running, mut kept) = (vec![9; 266], vec![9; 266]);
                let (control, refused) = setup(r, n, s, &mut running, &mut kept);
                let expected = r_refused.max(n_refused).max(s_refused);
                assert_eq!(refused.unwrap_or(0), expected, "ring {r} {n} {s}");
                if expected == 1 {
                    assert_eq!(control, Control::default());
                    assert_eq!([running, kept].concat(), vec![9; 532]);
                }
                tried += 1;
            }
        }
    }
    assert_eq!(tried, 125);
}

#[test]
fn an_image_of_the_smallest_and_the_largest_ring() {
    for (r, n, needed) in [(1, 1, 7), (64, 8, 266), (3, 2, 16)] {
        for (running, kept, expected) in
            [(needed, needed, None), (needed - 1, needed, Some(10)), (needed, needed - 1, Some(10))]
        {
            let (mut running, mut kept) = (vec![9; running], vec![9; kept]);
            assert_eq!(setup(r, n, 1, &mut running, &mut kept).1, expected);
        }
    }
}

/// A busy thread's record is sound on the left and not on the right.
#[test]
fn parts_of_a_sound_record() {
    let busy = Thread { place: P2, item: 5, number: 9, tries: 3, ..Thread::default() };
    let take = Thread { place: T2, item: 0, number: 9, tries: 3, ..Thread::default() };
    let free = Cell { safe: u32::MAX, index: u32::MAX, item: u32::MAX, mark: u32::MAX };
    let pairs: [(Thread, Thread); 12] = [
        (Thread { place: P10, ..busy }, Thread { place: 21, ..busy }),
        (Thread { place: T10, ..take }, Thread { place: u32::MAX, ..take }),
        (Thread { item: u32::MAX, ..busy }, Thread { item: 0, ..busy }),
        (Thread { place: P10, ..busy }, Thread { place: P10, item: 0, ..busy }),
        (Thread { number: 0, ..busy }, Thread { number: 10, ..busy }),
        (Thread { place: P1, ..busy }, Thread { place: P1, number: 10, ..busy }),
        (Thread { place: T1, ..take }, Thread { place: T1, number: 10, ..take }),
        (Thread { tries: 0, ..busy }, Thread { tries: 4, ..busy }),
        (Thread { item: 8, ..take }, Thread { tries: 4, ..take }),
        (Thread { line: Line::Cell(2), ..busy }, Thread { line: Line::Cell(3), ..busy }),
        (Thread { line: Line::Copy(1), ..take }, Thread { line: Line::Copy(2), ..take }),
        (Thread { line: Line::Tail, cell: free, ..busy }, Thread { place: IDLE, ..busy }),
    ];
    for (good, bad) in pairs {
        assert_eq!(refusal(Event::Cut, |ring| ring.control.thread[1] = good), 0, "{good:?}");
        assert_eq!(refusal(Event::Cut, |ring| ring.control.thread[1] = bad), 8, "{bad:?}");
        // No thread at or above n is busy.
        assert_eq!(refusal(Event::Cut, |ring| ring.control.thread[2] = good), 8, "{good:?}");
    }
}

#[test]
fn an_idle_thread_has_all_fields_zero() {
    let idle = Thread::default();
    let one = |safe, index, item, mark| Cell { safe, index, item, mark };
    let not_zero = [
        Thread { item: 1, ..idle },
        Thread { number: 1, ..idle },
        Thread { cell: one(1, 0, 0, 0), ..idle },
        Thread { cell: one(0, 1, 0, 0), ..idle },
        Thread { cell: one(0, 0, 1, 0), ..idle },
        Thread { cell: one(0, 0, 0, 1), ..idle },
        Thread { tries: 1, ..idle },
        Thread { line: Line::Cell(0), ..idle },
        Thread { line: Line::Copy(0), ..idle },
        Thread { line: Line::Tail, ..idle },
    ];
    for thread in not_zero {
        for t in 0..8 {
            assert_eq!(refusal(Event::Cut, |ring| ring.control.thread[t] = thread), 8);
        }
    }
    assert_eq!(refusal(Event::Cut, |_| ()), 0);
}

#[test]
fn counts_of_a_sound_record() {
    assert_eq!(refusal(Event::Cut, |ring| ring.control.head = 10), 0);
    assert_eq!(refusal(Event::Cut, |ring| ring.control.head = 11), 8);
    assert_eq!(refusal(Event::Cut, |ring| ring.control.events = 1_000_001), 8);
    // P1 and T1 may hold zero even before the first event; no other place may.
    for (place, number, sound) in [(P1, 0, true), (T1, 0, true), (P1, 1, false), (P2, 0, false)] {
        let mut control = Control::fresh(3, 2, 4);
        control.thread[0] = Thread { place, item: 1, number, ..Thread::default() };
        assert_eq!(record_sound(&control), sound, "place {place}, number {number}");
    }
}

/// Each place of the image with the largest sound number and the smallest that isn't.
#[test]
fn parts_of_a_sound_image() {
    // Cell 1 stands at 4; 7 is put into its item first where it must be occupied.
    let parts = [
        (4, 1, 2, 0),
        (5, 12, 13, 0),
        (5, 9, 10, 7),
        (6, u32::MAX, u32::MAX, 0),
        (7, 10, 11, 0),
        (12, 10, 11, 0),
        (13, 10, 11, 0),
        (14, 1, 2, 0),
        (15, 10, 11, 0),
    ];
    for (at, good, bad, item) in parts {
        for (running, kept) in [(true, false), (false, true)] {
            let with = |number: u32| {
                refusal(Event::Back(Line::Tail), |ring| {
                    for (chosen, image) in [(running, &mut ring.running), (kept, &mut ring.kept)] {
                        if chosen {
                            image[6] = item;
                            image[at] = number;
                        }
                    }
                })
            };
            assert_eq!(with(good), 0, "{good} at {at}");
            assert_eq!(with(bad), if good == bad { 0 } else { 12 }, "{bad} at {at}");
        }
    }
}

#[test]
fn numbers_told_to_an_entry() {
    let busy = |ring: &mut Ring| {
        for t in 0..2 {
            ring.control.thread[t] = Thread { place: T1, ..Thread::default() };
        }
    };
    for (t, begin, step) in [(0, 0, 0), (1, 0, 0), (2, 2, 2), (8, 2, 2), (u32::MAX, 2, 2)] {
        assert_eq!(refusal(Event::Put(t, 1), |_| ()), begin);
        assert_eq!(refusal(Event::Take(t), |_| ()), begin);
        assert_eq!(refusal(Event::Step(t), busy), step);
        assert_eq!(refusal(Event::Back(Line::Copy(t)), |_| ()), if t < 2 { 0 } else { 3 });
        if t < 2 {
            assert_eq!(refusal(Event::Put(t, 1), busy), 4);
            assert_eq!(refusal(Event::Take(t), busy), 4);
            assert_eq!(refusal(Event::Step(t), |_| ()), 5);
        }
    }
    for (item, expected) in [(0, 6), (1, 0), (u32::MAX, 0)] {
        assert_eq!(refusal(Event::Put(1, item), |_| ()), expected);
    }
    for (j, expected) in [(0, 0), (2, 0), (3, 3), (64, 3), (u32::MAX, 3)] {
        assert_eq!(refusal(Event::Back(Line::Cell(j)), |_| ()), expected);
    }
    // There is no such line to write back.
    assert_eq!(refusal(Event::Back(Line::None), |_| ()), 3);
}

#[test]
fn lengths_of_the_listing_the_host_and_the_reader() {
    let ring = ten_events();
    let bytes: Vec<u8> = ring.kept.iter().flat_map(|number| number.to_le_bytes()).collect();
    let full = length(3, 2);
    for (numbers, room, expected) in
        [(full, 3, Ok(0)), (full, 2, Err(11)), (full - 1, 3, Err(10)), (full - 1, 2, Err(10))]
    {
        let mut room = vec![5; room];
        assert_eq!(listing(3, 2, 4, 10, &ring.kept[..numbers], &mut room), expected);
        assert!(room.iter().all(|&item| item == 5));
    }
    for (length, expected) in [(4 * full, 0), (4 * full - 1, 10), (0, 10)] {
        assert_eq!(host_recovery(3, 2, 4, 10, &mut bytes[..length].to_vec()), expected);
    }
    for (r, j, length, expected) in [
        (3, 2, 12, 4),
        (3, 2, 11, 0),
        (3, 3, 12, 0),
        (0, 0, 12, 0),
        (65, 0, 266, 0),
        (64, 63, 256, 4),
    ] {
        let image = vec![0; length];
        for which in [Image::Running, Image::Kept] {
            let (running, kept): (&[u32], &[u32]) = match which {
                Image::Running => (&image, &[]),
                Image::Kept => (&[], &image),
            };
            assert_eq!(read_cell(r, j, which, running, kept).len(), expected);
        }
    }
}

#[test]
fn event_1_000_000_is_accepted_and_the_next_is_7() {
    let mut ring = Ring::fresh(SHAPE);
    for at in 1..=1_000_000 {
        let event = if at == 1_000_000 { Event::Cut } else { Event::Back(Line::Cell(at % 3)) };
        assert!(!matches!(ring.event(event), Answer::Refused(_)), "event {at}");
    }
    assert_eq!(ring.control.events, 1_000_000);
    let before = ring.clone();
    let more =
        [Event::Cut, Event::Put(0, 0), Event::Take(9), Event::Step(0), Event::Back(Line::Cell(9))];
    for event in more {
        assert_eq!(ring.event(event), Answer::Refused(7), "{event:?}");
        assert_eq!(ring, before);
    }
    // The listing and host recovery go on.
    assert_eq!(listing(3, 2, 4, 1_000_000, &ring.kept, &mut [0; 3]), Ok(0));
    let mut bytes: Vec<u8> = ring.kept.iter().flat_map(|number| number.to_le_bytes()).collect();
    assert_eq!(host_recovery(3, 2, 4, 1_000_000, &mut bytes), 0);
}
