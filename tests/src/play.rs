//! Plays a run written as lines `event => answer`, each with its whole answer.

use crate::check::{Ring, Shape};
use crate::text::{event_of, ring_of};

/// A fresh ring from a line `ring R n S`.
pub fn ring(line: &str) -> Ring {
    let Some([r, n, s]) = ring_of(line.as_bytes()) else {
        panic!("{line} is no ring");
    };
    Ring::fresh(Shape { r, n, s })
}

/// Plays the lines and compares every answer; gives how many there were. Empty lines and lines
/// that begin with # are passed over.
pub fn play(ring: &mut Ring, lines: &str) -> u32 {
    let mut count = 0;
    for line in lines.lines().map(str::trim) {
        if line.is_empty() || line.starts_with('#') {
            continue;
        }
        let Some((text, expected)) = line.split_once(" => ") else {
            panic!("{line} has no answer");
        };
        let Some(event) = event_of(text.as_bytes()) else {
            panic!("{text} is no event");
        };
        let answer = ring.event(event).text();
        assert_eq!(answer, expected, "event {}: {text}", count + 1);
        count += 1;
    }
    count
}

/// A put that finds its cell free, with everything up to OK. R cells, thread t, number, item.
pub fn confirmed(r: u32, t: u32, number: u32, item: u32) -> String {
    let j = number % r;
    format!(
        "put {t} {item} => 1 {t}
        go {t} => 2 {t} {number}
        go {t} => 3 {t} {number} {j}
        go {t} => 5 {t} {number} {j} {item}
        go {t} => 7 {t} {number}
        back cell {j} => 20 1 {j}
        go {t} => 9 {t} {number} {item}\n"
    )
}

/// A take that finds its item, with everything up to ITEM.
pub fn handed(r: u32, t: u32, number: u32, item: u32) -> String {
    let j = number % r;
    let next = number + 1;
    format!(
        "take {t} => 1 {t}
        go {t} => 2 {t} {number}
        go {t} => 3 {t} {number} {j}
        go {t} => 12 {t} {number} {j} {item}
        go {t} => 17 {t} {number} {next}
        go {t} => 7 {t} {number}
        back copy {t} => 20 2 {t}
        go {t} => 18 {t} {number} {item}\n"
    )
}
