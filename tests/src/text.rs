//! `ringrun`: from the bytes of its input to the bytes of its output.

use crate::answer::Answer;
use crate::machine::{event, setup, Event, Line};
use crate::memory::length;
use crate::recovery::queue;

const LONGEST_LINE: usize = 40;

/// Everything that `ringrun` prints for this input.
pub fn ringrun(input: &[u8]) -> Vec<u8> {
    let mut output = String::new();
    let events = run(input, &mut output);
    output += &format!("end {events}\n");
    output.into_bytes()
}

/// Prints all but the last line and gives the event count.
fn run(input: &[u8], output: &mut String) -> u32 {
    let mut lines = lines(input).into_iter().zip(1..);
    let first = lines.next().and_then(|(line, _)| ring_of(line));
    let Some([r, n, s]) = first else {
        *output += "refused 1 9\n";
        return 0;
    };
    // Room for the largest ring there is, since R and n are not yet judged.
    let (mut running, mut kept) = ([0; 266], [0; 266]);
    let (mut control, refused) = setup(r, n, s, &mut running, &mut kept);
    if let Some(number) = refused {
        *output += &format!("refused 1 {number}\n");
        return 0;
    }
    let length = length(r, n);
    let (running, kept) = (&mut running[..length], &mut kept[..length]);
    for (line, at) in lines {
        let Some(next) = event_of(line) else {
            *output += &format!("refused {at} 9\n");
            continue;
        };
        let answer;
        (control, answer) = event(control, next, running, kept);
        let count = control.events;
        match answer {
            Answer::Refused(number) => *output += &format!("refused {at} {number}\n"),
            Answer::Ok(t, _, x) => *output += &format!("{count} ok {t} {x}\n"),
            Answer::Closed(t, _) => *output += &format!("{count} closed {t}\n"),
            Answer::Item(t, _, x) => *output += &format!("{count} item {t} {x}\n"),
            Answer::Empty(t, _) => *output += &format!("{count} empty {t}\n"),
            Answer::Cut(mark, head, tail, closed, queued) => {
                *output += &format!("{count} cut {mark} {head} {tail} {closed} {queued}");
                for (_, item) in queue(r, n, kept) {
                    *output += &format!(" {item}");
                }
                *output += "\n";
            }
            _ => {}
        }
    }
    control.events
}

/// The lines without their newlines; the last newline may be missing. No input is one empty line.
fn lines(input: &[u8]) -> Vec<&[u8]> {
    let input = input.strip_suffix(b"\n").unwrap_or(input);
    input.split(|&byte| byte == b'\n').collect()
}

/// R, n and S of a first line.
pub fn ring_of(line: &[u8]) -> Option<[u32; 3]> {
    match words(line)?.as_slice() {
        [b"ring", r, n, s] => Some([number(r)?, number(n)?, number(s)?]),
        _ => None,
    }
}

/// The event of any later line.
pub fn event_of(line: &[u8]) -> Option<Event> {
    match words(line)?.as_slice() {
        [b"put", t, x] => Some(Event::Put(number(t)?, number(x)?)),
        [b"take", t] => Some(Event::Take(number(t)?)),
        [b"go", t] => Some(Event::Step(number(t)?)),
        [b"back", b"cell", j] => Some(Event::Back(Line::Cell(number(j)?))),
        [b"back", b"copy", t] => Some(Event::Back(Line::Copy(number(t)?))),
        [b"back", b"tail"] => Some(Event::Back(Line::Tail)),
        [b"cut"] => Some(Event::Cut),
        _ => None,
    }
}

/// The words, where a doubled, leading or trailing space makes an empty word.
fn words(line: &[u8]) -> Option<Vec<&[u8]>> {
    (line.len() <= LONGEST_LINE).then(|| line.split(|&byte| byte == b' ').collect())
}

/// A decimal number without leading zeros.
fn number(word: &[u8]) -> Option<u32> {
    let digits = word.iter().all(u8::is_ascii_digit);
    let leading_zero = word.len() > 1 && word[0] == b'0';
    if word.is_empty() || !digits || leading_zero {
        return None;
    }
    std::str::from_utf8(word).ok()?.parse().ok()
}

/// The line of text of an event.
pub fn event_text(event: Event) -> String {
    match event {
        Event::Put(t, x) => format!("put {t} {x}"),
        Event::Take(t) => format!("take {t}"),
        Event::Step(t) => format!("go {t}"),
        Event::Back(Line::None) => "back none".to_string(),
        Event::Back(Line::Cell(j)) => format!("back cell {j}"),
        Event::Back(Line::Copy(t)) => format!("back copy {t}"),
        Event::Back(Line::Tail) => "back tail".to_string(),
        Event::Cut => "cut".to_string(),
    }
}
