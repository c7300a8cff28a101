//! Random runs of the model as a proof file of `rules`: its definitions must give the same answers, event by event, and leave the same.

use std::fmt::Write;

use crate::answer::Answer;
use crate::check::Ring;
use crate::machine::{Cell, Control, Event, Line, Thread};
use crate::random::{run, shape, Random};

/// How many runs there are, and how many events each has. With this seed they have every answer, and every refusal that a run can meet but 7.
const RUNS: u32 = 6;
const EVENTS: u32 = 70;
const SEED: u64 = 16771;

const HEAD: &str = "\
-- Random runs of the model in tests/, which was written from document 01 alone: the definitions give its answers, event by event, and leave its record and images.
-- This file is written by `cargo run --bin compared` in tests/, and a test there sees that it is what the model gives.
use mathlib.Core.Path.{◌≡◌, refl}
use Rattle.std.specs.Prelude.{ℕ, List, [], ◌∷◌, map, replicate}
use Rattle.rules.specs.declared.Line.{Line}
use Rattle.rules.specs.declared.Line.TheVariants.{None, Copy, Tail, Cell as CellLine}
use Rattle.rules.specs.declared.Cell.{Cell}
use Rattle.rules.specs.declared.Thread.{Thread}
use Rattle.rules.specs.declared.Ring.{Ring}
use Rattle.rules.specs.declared.Control.{Control}
use Rattle.rules.specs.declared.Event.{Event}
use Rattle.rules.specs.declared.Event.TheVariants.{Put, Take, Go, Back, Cut as CutEvent}
use Rattle.rules.specs.declared.Answer.{Answer}
use Rattle.rules.specs.declared.Answer.TheVariants.{Refused, Begun, Drew, Looked, SawHead, Landed, Missed, Asked, Waiting, Ok, Closed, SetClosed, Took, Flagged, Passed, SawTail, Lifted, Copied, Item, Empty, Written, Cut}
use Rattle.rules.specs.Numbers.{in_range}
use Rattle.rules.specs.Record.{cell, idle, ring_of, thread_at, with_thread}
use Rattle.rules.specs.Memory.{size, cell_at, set_cell, copy_at, set_copy, closed_at, set_closed, tail_at, set_tail, fresh_image}
use Rattle.rules.specs.Line.{line_exists, carries_cell, carries_copy, carries_tail, carried, ends, released}
use Rattle.rules.specs.Answers.{by, found}
use Rattle.rules.specs.Table.{same, row_wait, row_p1, row_p2, row_p3, row_p4, row_p5, row_p6, row_p7, row_p8, row_p9, row_p10, row_t1, row_t2, row_t3, row_t4, row_t5, row_t6, row_t7, row_t8, row_t9, row_t10, put_row, take_row, row}
use Rattle.rules.specs.Cut.{pass_mark, queued, tail_of, head_of, count_of, finds, mended, recovered}
use Rattle.rules.specs.Sound.{sound_ring, all_zero, sound_number, sound_busy, sound_thread, sound_record, sound_cell, sound_image}
use Rattle.rules.specs.State.{State, state, accept}
use Rattle.rules.specs.Refusals.{unsound, own_refusal}
use Rattle.rules.specs.Events.{begin_put, begin_take, step_thread, write_back, cut, does, inner, event, fresh_state, after, answers}

-- what a run answers and leaves, by the definitions and by the model
pub record Left : Type 0 where
  pub answers : List Answer
  pub state : State

abbrev left : List Answer → State → Left
left l s = record { answers = l; state = s }

pub record Run : Type 0 where
  pub worked : Left
  pub model : Left

-- from a fresh ring over memory that held sevens
abbrev run : ℕ → ℕ → ℕ → List Event → Left → Run
run R n S es m =
    let s = fresh_state R n S (replicate (size R n) 7) (replicate (size R n) 7) in
    record { worked = left (answers s es) (after s es); model = m }

abbrev thread : ℕ → ℕ → ℕ → Cell → ℕ → Line → Thread
thread p x v c k l = record { place = p; item = x; number = v; looked = c; tries = k; awaited = l }

abbrev control : Ring → List Thread → Control
control g l = record { ring = g; thread = l }
";

const THEOREM: &str = "
pub compared : map (λ (r : Run). r.worked) runs ≡ map (λ (r : Run). r.model) runs
unfolding in_range thread_at with_thread cell_at set_cell copy_at set_copy closed_at set_closed tail_at set_tail fresh_image line_exists carries_cell carries_copy carries_tail carried ends released same row_wait row_p1 row_p2 row_p3 row_p4 row_p5 row_p6 row_p7 row_p8 row_p9 row_p10 row_t1 row_t2 row_t3 row_t4 row_t5 row_t6 row_t7 row_t8 row_t9 row_t10 put_row take_row row pass_mark queued tail_of head_of count_of finds mended recovered sound_ring all_zero sound_number sound_busy sound_thread sound_record sound_cell sound_image accept unsound own_refusal begin_put begin_take step_thread write_back cut does inner event fresh_state after answers
compared = refl
";

/// The whole file.
pub fn file() -> String {
    let mut random = Random(SEED);
    let mut text = format!("{HEAD}\nabbrev pub runs : List Run\nruns =\n");
    for _ in 0..RUNS {
        let shape = shape(&mut random, 5, 3, 5);
        let events = run(&mut random, shape, EVENTS);
        let mut ring = Ring::fresh(shape);
        let answers: Vec<String> = events.iter().map(|it| answer(ring.event(*it))).collect();
        let events: Vec<String> = events.iter().map(|it| event(*it)).collect();
        let _ = writeln!(
            text,
            "    run {} {} {} ({}) (left ({}) (state {} ({}) ({}))) ∷",
            shape.r,
            shape.n,
            shape.s,
            list(&events),
            list(&answers),
            control(&ring.control),
            list(&ring.running),
            list(&ring.kept),
        );
    }
    text + "    []\n" + THEOREM
}

fn list<T: ToString>(items: &[T]) -> String {
    let mut text = String::new();
    for item in items {
        let _ = write!(text, "{} ∷ ", item.to_string());
    }
    text + "[]"
}

fn event(event: Event) -> String {
    match event {
        Event::Put(t, x) => format!("Put {t} {x}"),
        Event::Take(t) => format!("Take {t}"),
        Event::Step(t) => format!("Go {t}"),
        Event::Back(l) => format!("Back {}", line(l)),
        Event::Cut => "CutEvent".to_string(),
    }
}

fn line(line: Line) -> String {
    match line {
        Line::None => "None".to_string(),
        Line::Cell(j) => format!("(CellLine {j})"),
        Line::Copy(t) => format!("(Copy {t})"),
        Line::Tail => "Tail".to_string(),
    }
}

fn answer(answer: Answer) -> String {
    match answer {
        Answer::Refused(k) => format!("Refused {k}"),
        Answer::Begun(t) => format!("Begun {t}"),
        Answer::Drew(t, n) => format!("Drew (by {t} {n})"),
        Answer::Looked(t, n, j) => format!("Looked (by {t} {n}) {j}"),
        Answer::SawHead(t, n, v) => format!("SawHead (by {t} {n}) {v}"),
        Answer::Landed(t, n, j, x) => format!("Landed (by {t} {n}) {j} {x}"),
        Answer::Missed(t, n, j) => format!("Missed (by {t} {n}) {j}"),
        Answer::Asked(t, n) => format!("Asked (by {t} {n})"),
        Answer::Waiting(t, n) => format!("Waiting (by {t} {n})"),
        Answer::Ok(t, n, x) => format!("Ok (by {t} {n}) {x}"),
        Answer::Closed(t, n) => format!("Closed (by {t} {n})"),
        Answer::SetClosed(t, n) => format!("SetClosed (by {t} {n})"),
        Answer::Took(t, n, j, x) => format!("Took (by {t} {n}) {j} {x}"),
        Answer::Flagged(t, n, j) => format!("Flagged (by {t} {n}) {j}"),
        Answer::Passed(t, n, j) => format!("Passed (by {t} {n}) {j}"),
        Answer::SawTail(t, n, v) => format!("SawTail (by {t} {n}) {v}"),
        Answer::Lifted(t, n, v) => format!("Lifted (by {t} {n}) {v}"),
        Answer::Copied(t, n, v) => format!("Copied (by {t} {n}) {v}"),
        Answer::Item(t, n, x) => format!("Item (by {t} {n}) {x}"),
        Answer::Empty(t, n) => format!("Empty (by {t} {n})"),
        Answer::Written(l) => format!("Written {}", line(l)),
        Answer::Cut(mark, head, tail, closed, count) => {
            format!("Cut (found {mark} {head} {tail} {closed} {count})")
        }
    }
}

fn control(control: &Control) -> String {
    let Control { r, n, s, events, head, thread } = control;
    let threads: Vec<String> = thread.iter().map(record).collect();
    format!("(control (ring_of {r} {n} {s} {events} {head}) ({}))", list(&threads))
}

fn record(thread: &Thread) -> String {
    if *thread == Thread::default() {
        return "idle".to_string();
    }
    let Thread { place, item, number, cell, tries, line: awaited } = *thread;
    let Cell { safe, index, item: held, mark } = cell;
    let cell = format!("(cell {safe} {index} {held} {mark})");
    format!("thread {place} {item} {number} {cell} {tries} {}", line(awaited))
}
