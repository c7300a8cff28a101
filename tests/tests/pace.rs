//! The program `pace` against the model: it says "all" if the ring accepts each of its 999,855 events, and the model accepts them.

use std::io::Write;
use std::process::{Command, Stdio};
use winterbeam_tests::answer::Answer;
use winterbeam_tests::machine::{event, setup, Event, Line};

/// What the program prints for an input.
fn program(input: &[u8]) -> Vec<u8> {
    let mut child = Command::new(concat!(env!("CARGO_MANIFEST_DIR"), "/../crates/pace/out/pace"))
        .stdin(Stdio::piped())
        .stdout(Stdio::piped())
        .spawn()
        .expect("crates/pace/out/pace starts: `rt run` in crates/pace proves and builds it");
    let mut to = child.stdin.take().expect("its standard input");
    to.write_all(input).expect("it can be written");
    drop(to);
    let said = child.wait_with_output().expect("it ends");
    assert!(said.status.success());
    said.stdout
}

/// A put by thread 0 that lands in cell j and is confirmed, and a take by thread 0 that hands it out.
fn round(j: u32) -> [Event; 15] {
    let step = Event::Step(0);
    let [put, take] = [Event::Put(0, 7), Event::Take(0)];
    let [cell, copy] = [Event::Back(Line::Cell(j)), Event::Back(Line::Copy(0))];
    [put, step, step, step, step, cell, step, take, step, step, step, step, step, copy, step]
}

/// How many rounds the program runs, in blocks of 17.
const ROUNDS: u32 = 3921 * 17;

#[test]
fn all_is_accepted() {
    let (mut running, mut kept) = ([0; 266], [0; 266]);
    let (mut control, refused) = setup(64, 8, 255, &mut running, &mut kept);
    assert_eq!(refused, None);
    let mut items = 0;
    for i in 0..ROUNDS {
        for e in round(i % 64) {
            let (next, answer) = event(control, e, &mut running, &mut kept);
            assert!(!matches!(answer, Answer::Refused(_)), "round {i}: {e:?}");
            items += u32::from(matches!(answer, Answer::Item(..)));
            control = next;
        }
    }
    assert_eq!((control.events, items), (999_855, ROUNDS));
    for input in ["1", "0", ""] {
        assert_eq!(program(input.as_bytes()), b"all\n", "input {input:?}");
    }
}
