//! The exported recovery against the model: the archive is called by a C client, on bytes. What
//! the call returns and every byte of the image are compared, and the bytes around it must stay.

use winterbeam_tests::client::{program, Call, Client};
use winterbeam_tests::images::{call, smallest};
use winterbeam_tests::machine::Control;
use winterbeam_tests::memory::length;
use winterbeam_tests::random::Random;
use winterbeam_tests::recovery::host_recovery;

const CALLS_FOR_EACH_RING: u64 = 48;
const FIRST_SEED: u64 = 16_000_000;

/// What the model says of a call.
fn expected(call: &Call) -> (u32, Vec<u8>) {
    let mut kept = call.kept.clone();
    let returned = host_recovery(call.cells, call.threads, call.tries, call.events, &mut kept);
    (returned, kept)
}

/// What the archive says of a call. The client is started again where it ended.
fn archive(client: &mut Client, call: &Call) -> Result<(u32, Vec<u8>), String> {
    let answer = client.recover(call);
    if answer.is_err() {
        *client = Client::start();
    }
    answer
}

fn check(client: &mut Client, call: &Call, from: &str) {
    let answer = archive(client, call);
    if answer == Ok(expected(call)) {
        return;
    }
    let call = smallest(call.clone(), |call| archive(client, call).as_ref() != Ok(&expected(call)));
    let show = |(returned, kept): (u32, Vec<u8>)| {
        format!("returns {returned} and leaves\n{}", Call { kept, ..call.clone() })
    };
    let model = show(expected(&call));
    let archive = archive(client, &call).map_or_else(|error| format!("fails: {error}"), show);
    panic!("{from}: the smallest call that differs is\n{call}\nThe model {model}\nThe archive {archive}");
}

/// A call that was checked, so that the test can tell that it tried everything.
struct Seen {
    returned: u32,
    changed: bool,
    call: Call,
}

impl Seen {
    fn new(call: Call) -> Seen {
        let (returned, kept) = expected(&call);
        Seen { returned, changed: kept != call.kept, call }
    }
}

#[test]
fn images_of_every_ring() {
    let rings = (1..=Control::CELLS).flat_map(|r| (1..=Control::THREADS).map(move |n| (r, n)));
    let mut client = Client::start();
    let mut seen = Vec::new();
    for (r, n) in rings {
        for _ in 0..CALLS_FOR_EACH_RING {
            let seed = FIRST_SEED + seen.len() as u64;
            let call = call(&mut Random(seed), r, n);
            check(&mut client, &call, &format!("seed {seed}, R {r}, n {n}"));
            seen.push(Seen::new(call));
        }
    }
    client.finish();
    println!("seeds {FIRST_SEED} to {}", FIRST_SEED + seen.len() as u64 - 1);
    assert!(seen.len() >= 20_000);
    let at_least = |least: usize, what: &str, which: &dyn Fn(&Seen) -> bool| {
        let count = seen.iter().filter(|seen| which(seen)).count();
        assert!(count >= least, "only {count} calls: {what}");
        println!("{count} calls: {what}");
    };
    for number in [0, 8, 10, 12] {
        at_least(1_000, &format!("returned {number}"), &|seen| seen.returned == number);
    }
    let with = |number: u32, which: &dyn Fn(&Call) -> bool| {
        seen.iter().any(|seen| seen.returned == number && which(&seen.call))
    };
    for number in [0, 10, 12] {
        assert!((1..=Control::CELLS).all(|r| with(number, &|call| call.cells == r)));
        assert!((1..=Control::THREADS).all(|n| with(number, &|call| call.threads == n)));
    }
    let accepted = |seen: &Seen| seen.returned == 0;
    at_least(5_000, "changed the image", &|seen| seen.changed);
    at_least(50, "accepted with 0 events", &|seen| accepted(seen) && seen.call.events == 0);
    at_least(50, "accepted with 1,000,000 events", &|seen| {
        accepted(seen) && seen.call.events == Control::EVENTS
    });
    at_least(50, "accepted with more bytes than any image has", &|seen| {
        accepted(seen) && seen.call.kept.len() > 4 * 266
    });
    at_least(50, "refused with 8 and too short for any image", &|seen| {
        seen.returned == 8 && seen.call.kept.len() < 4 * 7
    });
}

/// A fresh ring's kept image.
fn fresh(r: u32, n: u32) -> Vec<u8> {
    let mut image = vec![0; length(r, n)];
    for j in 0..r {
        image[4 * j as usize..][..2].copy_from_slice(&[1, j]);
    }
    image.iter().flat_map(|number: &u32| number.to_le_bytes()).collect()
}

#[test]
fn refusals_come_in_order() {
    let mut client = Client::start();
    let good = Call { cells: 3, threads: 2, tries: 4, events: 9, kept: fresh(3, 2), offset: 0 };
    let ranges: [fn(&mut Call); 8] = [
        |call| call.cells = 0,
        |call| call.cells = 65,
        |call| call.threads = 0,
        |call| call.threads = 9,
        |call| call.tries = 0,
        |call| call.tries = 256,
        |call| call.events = 1_000_001,
        |call| call.events = u32::MAX,
    ];
    // Nothing wrong, safe of cell 0 wrong, a byte too few, and both.
    for (safe, shorter, number) in [(1, 0, 0), (2, 0, 12), (1, 1, 10), (2, 1, 10)] {
        let mut call = good.clone();
        call.kept[0] = safe;
        call.kept.truncate(good.kept.len() - shorter);
        assert_eq!(client.recover(&call), Ok((number, call.kept.clone())), "{call}");
        for wrong in ranges {
            let mut call = call.clone();
            wrong(&mut call);
            assert_eq!(client.recover(&call), Ok((8, call.kept.clone())), "{call}");
        }
    }
    client.finish();
}

#[test]
fn no_bytes_and_very_many() {
    let mut client = Client::start();
    let call = Call { cells: 1, threads: 1, tries: 1, events: 0, kept: Vec::new(), offset: 1 };
    assert_eq!(client.recover(&call), Ok((10, Vec::new())));
    let kept = [fresh(64, 8), vec![0xff; 1 << 20]].concat();
    let call = Call { cells: 64, threads: 8, tries: 255, events: 0, kept, offset: 3 };
    assert_eq!(client.recover(&call), Ok((0, call.kept.clone())));
    client.finish();
}

#[test]
fn case_h_with_its_mark() {
    let numbers = |numbers: &[u32]| -> Vec<u8> {
        numbers.iter().flat_map(|number| number.to_le_bytes()).collect()
    };
    let past = vec![1, 2, 3, 4, 5, 6];
    let kept = numbers(&[
        1, 0, 100, 0, 1, 1, 101, 0, 1, 2, 102, 0, 1, 8, 108, 4, 1, 4, 0, 0, // cells
        0, 0, 3, // copy, closed, Tail
    ]);
    let left = numbers(&[
        1, 5, 0, 8, 1, 6, 0, 8, 1, 7, 0, 8, 1, 8, 108, 8, 1, 4, 0, 8, // cells
        8, 0, 9, // copy, closed, Tail
    ]);
    let (kept, left) = ([kept, past.clone()].concat(), [left, past].concat());
    let mut client = Client::start();
    let mut call = Call { cells: 5, threads: 1, tries: 16, events: 9, kept, offset: 5 };
    assert_eq!(client.recover(&call), Ok((0, left.clone())));
    call.kept = left.clone();
    assert_eq!(client.recover(&call), Ok((0, left)), "a second recovery");
    client.finish();
}

#[test]
fn the_stack_is_as_the_header_says() {
    let output = program("stack").output().unwrap();
    assert!(output.status.success(), "the program ended with {}", output.status);
    let bytes: u32 = String::from_utf8(output.stdout).unwrap().trim().parse().unwrap();
    println!("{bytes} bytes of stack");
    assert!((4 * 266..=1536).contains(&bytes), "{bytes} bytes of stack");
}
