//! The account and the fates worked out by hand from answers, and that both can say no.

use winterbeam_tests::account::Account;
use winterbeam_tests::answer::Answer::{
    self, Begun, Closed, Copied, Cut, Drew, Empty, Item, Landed,
};
use winterbeam_tests::answer::Answer::{Passed, SawTail, SetClosed, Took, Written};
use winterbeam_tests::check::{smallest, Ring, Shape};
use winterbeam_tests::fates::{Count, Fates};
use winterbeam_tests::machine::{Event, Line};

fn cell(j: u32) -> Answer {
    Written(Line::Cell(j))
}

fn copy(t: u32) -> Answer {
    Written(Line::Copy(t))
}

fn account(answers: &[Answer]) -> Account {
    let mut account = Account::default();
    for &answer in answers {
        account.note(answer);
    }
    account
}

/// Case G's answers that count: items 10 to 13 are a to d, 14 is e; R is 4.
const CASE_G: [Answer; 11] = [
    Landed(0, 0, 0, 10),
    Written(Line::Cell(0)),
    Landed(0, 1, 1, 11),
    Written(Line::Cell(1)),
    Landed(0, 2, 2, 12),
    Written(Line::Cell(2)),
    Landed(0, 3, 3, 13),
    Written(Line::Cell(3)),
    Took(2, 1, 1, 11),
    Landed(0, 5, 1, 14),
    Written(Line::Cell(1)),
];

#[test]
fn the_account_of_case_g() {
    let account = account(&CASE_G);
    let queue = [(2, 12), (3, 13), (5, 14)];
    assert_eq!(account.pass_mark(), 2);
    assert_eq!(account.queue(), queue);
    assert_eq!(account.clone().cut(Cut(2, 2, 6, 0, 3), &queue), Ok(()));
    // Dropping marks would queue a c d e.
    let slip = [(0, 10), (2, 12), (3, 13), (5, 14)];
    assert!(account.clone().cut(Cut(0, 0, 6, 0, 4), &slip).is_err());
    assert!(account.clone().cut(Cut(2, 2, 6, 0, 3), &slip).is_err());
    assert!(account.clone().cut(Cut(2, 2, 6, 0, 3), &[(2, 12), (3, 13), (5, 15)]).is_err());
    for wrong in [Cut(1, 2, 6, 0, 3), Cut(2, 3, 6, 0, 3), Cut(2, 2, 5, 0, 3), Cut(2, 2, 6, 1, 3)] {
        assert!(account.clone().cut(wrong, &queue).is_err());
    }
}

#[test]
fn written_since_is_after_that_very_answer() {
    assert_eq!(account(&[cell(0), Landed(0, 0, 0, 7)]).queue(), []);
    assert_eq!(account(&[Landed(0, 0, 0, 7), cell(1)]).queue(), []);
    assert_eq!(account(&[Landed(0, 0, 0, 7), cell(0)]).queue(), [(0, 7)]);
    let took = [Landed(0, 0, 0, 7), cell(0), Took(1, 0, 0, 7)];
    assert_eq!(account(&took).queue(), [(0, 7)]);
    assert_eq!(account(&[&took[..], &[cell(0)]].concat()).queue(), []);
    assert_eq!(account(&[&took[..], &[copy(1), Copied(1, 0, 1)]].concat()).pass_mark(), 0);
    assert_eq!(account(&[&took[..], &[Copied(1, 0, 1), copy(0)]].concat()).pass_mark(), 0);
    assert_eq!(account(&[&took[..], &[Copied(1, 0, 1), copy(1)]].concat()).pass_mark(), 1);
    assert_eq!(account(&[Passed(0, 6, 2), cell(2)]).pass_mark(), 7);
    assert_eq!(account(&[cell(2), Passed(0, 6, 2)]).pass_mark(), 0);
    // A pass mark of one cell or copy that is lower takes nothing back.
    assert_eq!(account(&[Passed(0, 6, 2), cell(2), Copied(0, 3, 4), copy(0)]).pass_mark(), 7);
}

#[test]
fn what_the_last_cut_left() {
    let mut account = account(&CASE_G);
    let queue = [(2, 12), (3, 13), (5, 14)];
    account.cut(Cut(2, 2, 6, 0, 3), &queue).unwrap();
    assert_eq!((account.pass_mark(), account.queue()), (2, queue.to_vec()));
    account.note(Took(0, 2, 2, 12));
    assert_eq!((account.pass_mark(), account.queue()), (2, queue.to_vec()));
    account.note(cell(2));
    assert_eq!((account.pass_mark(), account.queue()), (3, queue[1..].to_vec()));
    account.note(SetClosed(1, 9));
    let open = account.clone().cut(Cut(3, 3, 6, 0, 2), &queue[1..]);
    account.note(Written(Line::Tail));
    let closed = account.clone().cut(Cut(3, 3, 6, 1, 2), &queue[1..]);
    assert_eq!((open, closed), (Ok(()), Ok(())));
    assert!(account.cut(Cut(3, 3, 6, 0, 2), &queue[1..]).is_err());
}

/// Hears these, of which only a begin's event counts.
fn fates(heard: &[(Event, Answer)]) -> Result<Fates, String> {
    let mut fates = Fates::default();
    for &(event, answer) in heard {
        fates.note(event, answer)?;
    }
    Ok(fates)
}

const GO: Event = Event::Step(0);

/// Thread 0 has confirmed item 7 under 0 and 8 under 1; thread 1 takes and has drawn 0.
const TWO_PUTS: [(Event, Answer); 6] = [
    (GO, Landed(0, 0, 0, 7)),
    (GO, Answer::Ok(0, 0, 7)),
    (GO, Landed(0, 1, 1, 8)),
    (GO, Answer::Ok(0, 1, 8)),
    (Event::Take(1), Begun(1)),
    (GO, Drew(1, 0)),
];

fn after_two_puts(more: &[(Event, Answer)]) -> Result<Fates, String> {
    fates(&[&TWO_PUTS, more].concat())
}

#[test]
fn each_fate() {
    let both = after_two_puts(&[]).unwrap().cut(Cut(0, 0, 2, 0, 2), &[(0, 7), (1, 8)]);
    assert_eq!(both, Ok(Count { queued: 2, ..Count::default() }));
    let gone = after_two_puts(&[]).unwrap().cut(Cut(1, 1, 2, 0, 1), &[(1, 8)]);
    assert_eq!(gone, Ok(Count { queued: 1, gone: 1, gone_now: 1, ..Count::default() }));
    let handed = after_two_puts(&[(GO, Item(1, 0, 7))]).unwrap().cut(Cut(1, 1, 2, 0, 1), &[(1, 8)]);
    assert_eq!(handed, Ok(Count { handed: 1, queued: 1, ..Count::default() }));
}

#[test]
fn a_wrong_fate_is_found() {
    let two = after_two_puts(&[]).unwrap();
    let lost = "neither handed, nor queued, nor gone";
    // Put 1 is missing, with and without something queued behind it.
    assert!(two.clone().cut(Cut(0, 0, 1, 0, 1), &[(0, 7)]).is_err(), "{lost}");
    assert!(two.clone().cut(Cut(2, 2, 2, 0, 0), &[]).is_err(), "{lost}");
    // Put 0 is missing, and the pass mark isn't past it.
    assert!(two.clone().cut(Cut(0, 1, 2, 0, 1), &[(1, 8)]).is_err(), "{lost}");
    // Put 0 is queued with another item.
    assert!(two.clone().cut(Cut(0, 0, 2, 0, 2), &[(0, 9), (1, 8)]).is_err(), "{lost}");
    // Put 0 is gone and still queued; gone behind something queued; handed and still queued.
    assert!(two.clone().cut(Cut(1, 0, 2, 0, 2), &[(0, 7), (1, 8)]).is_err());
    let behind = after_two_puts(&[(GO, Drew(1, 1))]).unwrap();
    assert!(behind.clone().cut(Cut(2, 0, 2, 0, 1), &[(0, 7)]).is_err());
    let handed = after_two_puts(&[(GO, Item(1, 0, 7))]).unwrap();
    assert!(handed.clone().cut(Cut(0, 0, 2, 0, 2), &[(0, 7), (1, 8)]).is_err());
    // A take that went back to T1 or answered EMPTY holds nothing; one at T7 still holds.
    for (answer, fine) in
        [(SawTail(1, 0, 2), false), (Empty(1, 0), false), (SawTail(1, 0, 1), true)]
    {
        let mut fates = after_two_puts(&[(GO, answer)]).unwrap();
        assert_eq!(fates.cut(Cut(1, 1, 2, 0, 1), &[(1, 8)]).is_ok(), fine, "{answer:?}");
    }
    // A put that drew a number doesn't hold it.
    let put = [&TWO_PUTS[..4], &[(Event::Put(1, 5), Begun(1)), (GO, Drew(1, 0))]].concat();
    assert!(fates(&put).unwrap().cut(Cut(1, 1, 2, 0, 1), &[(1, 8)]).is_err());
}

#[test]
fn a_wrong_answer_is_found() {
    assert!(after_two_puts(&[(GO, Item(1, 0, 7)), (GO, Item(0, 0, 7))]).is_err(), "handed twice");
    assert!(after_two_puts(&[(GO, Item(1, 0, 8))]).is_err(), "another item than landed");
    assert!(after_two_puts(&[(GO, Item(1, 2, 8))]).is_err(), "nothing landed there");
    assert!(after_two_puts(&[(GO, Answer::Ok(0, 1, 8))]).is_err(), "a second OK");
    assert!(after_two_puts(&[(GO, Answer::Ok(0, 2, 8))]).is_err(), "OK without landing");
    assert!(after_two_puts(&[(GO, Landed(0, 1, 1, 8))]).is_err(), "landed twice");
    let mut closed = after_two_puts(&[(GO, Closed(0, 2))]).unwrap();
    let queue = [(0, 7), (1, 8)];
    assert!(closed.cut(Cut(0, 0, 2, 1, 2), &queue).is_ok());
    assert!(closed.cut(Cut(0, 0, 2, 0, 2), &queue).is_err(), "open after CLOSED");
}

#[test]
fn what_is_gone_or_handed_stays_so() {
    let queue = [(1, 8)];
    for handed in [false, true] {
        let more = [(GO, Item(1, 0, 7))];
        let mut fates = after_two_puts(if handed { &more } else { &[] }).unwrap();
        assert!(fates.cut(Cut(1, 1, 2, 0, 1), &queue).is_ok());
        let again = Count { queued: 1, gone: !handed as u32, handed: handed as u32, gone_now: 0 };
        assert_eq!(fates.clone().cut(Cut(1, 1, 2, 0, 1), &queue), Ok(again));
        assert!(fates.clone().cut(Cut(0, 0, 2, 0, 2), &[(0, 7), (1, 8)]).is_err());
        assert!(fates.note(GO, Item(1, 0, 7)).is_err(), "it isn't there to be handed out");
    }
}

#[test]
fn shrinking_leaves_only_what_fails() {
    // Fails when thread 0's put lands under 0 and cell 0 is written after that.
    let fails = |events: &[Event]| {
        let mut ring = Ring::fresh(Shape { r: 2, n: 2, s: 2 });
        events.iter().for_each(|&event| _ = ring.event(event));
        ring.kept[2] == 9
    };
    let mut events =
        vec![Event::Take(1), Event::Put(0, 9), Event::Back(Line::Tail), Event::Step(1)];
    events.extend([Event::Step(0); 3]);
    events.extend([Event::Step(1), Event::Back(Line::Cell(1)), Event::Back(Line::Cell(0)), GO]);
    let left = [Event::Put(0, 9), GO, GO, GO, Event::Back(Line::Cell(0))];
    assert!(fails(&events));
    assert_eq!(smallest(&events, fails), left);
}
