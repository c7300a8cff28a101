//! docs/cut.svg: both images right before a script's cut, what recovery reads from kept, and the image that both hold after it.

use crate::answer::Answer;
use crate::check::Ring;
use crate::drawing::{Drawing, BOLD, LEFT, MIDDLE_BOLD, MIDDLE_SMALL};
use crate::machine::{Control, IDLE, P1, P10};
use crate::memory::{cell, closed_at, copy_at, tail_at};
use crate::play;
use crate::text::event_of;

/// A script's first cut: the ring right before and after it, its answer, and number and item of each OK until then.
pub struct Scene {
    pub before: Ring,
    pub after: Ring,
    pub answer: Answer,
    pub confirmed: Vec<(u32, u32)>,
}

/// Runs a script up to its first cut, and then that.
pub fn scene(script: &str) -> Scene {
    let mut lines = script.lines();
    let mut ring = play::ring(lines.next().expect("a first line"));
    let mut confirmed = Vec::new();
    for line in lines {
        let before = ring.clone();
        match ring.event(event_of(line.as_bytes()).expect("an event")) {
            Answer::Refused(number) => panic!("{line}: refused {number}"),
            Answer::Ok(_, number, item) => confirmed.push((number, item)),
            answer @ Answer::Cut(..) => return Scene { before, after: ring, answer, confirmed },
            _ => {}
        }
    }
    panic!("the script has no cut")
}

impl Scene {
    /// The item of the confirmed put that has gone with thread t's take.
    pub fn gone_with(&self, t: u32) -> Option<u32> {
        let thread = self.before.control.thread[t as usize];
        let queue = self.before.queue();
        let mut gone = self.confirmed.iter().filter(|put| !queue.contains(put));
        let put = gone.find(|put| thread.place > P10 && put.0 == thread.number);
        put.map(|&(_, item)| item)
    }

    /// An image as the rows of a table, each with its name: the cells, the copies, closed, Tail.
    fn rows(&self, image: &[u32]) -> Vec<(String, Vec<u32>)> {
        let (r, n) = (self.before.control.r, self.before.control.n);
        let numbers = |j| {
            let cell = cell(image, j);
            vec![cell.safe, cell.index, cell.item, cell.mark]
        };
        let mut rows: Vec<_> = (0..r).map(|j| (format!("cell {j}"), numbers(j))).collect();
        rows.push(("copies".to_string(), (0..n).map(|t| image[copy_at(r, t)]).collect()));
        rows.push(("closed".to_string(), vec![image[closed_at(r, n)]]));
        rows.push(("Tail".to_string(), vec![image[tail_at(r, n)]]));
        rows
    }

    /// The row and column of kept's largest mark or copy, the first if there are more, and its name.
    fn largest(&self) -> (usize, usize, String) {
        let rows = self.rows(&self.before.kept);
        let (r, n) = (self.before.control.r as usize, self.before.control.n as usize);
        let marks = (0..r).map(|j| (j, 3, format!("the mark of cell {j}")));
        let copies = (0..n).map(|t| (r, t, format!("copy {t}")));
        let both = marks.chain(copies).rev();
        both.max_by_key(|&(row, column, _)| rows[row].1[column]).expect("there is a cell")
    }

    /// What recovery reads, and the colour of each: the pass mark, then a line for each row of kept, then the count.
    fn readings(&self) -> Vec<(String, &'static str)> {
        let Answer::Cut(mark, head, tail, closed, count) = self.answer else {
            panic!("a cut's answer");
        };
        let queue = self.before.queue();
        let of_cell = |j| {
            let cell = cell(&self.before.kept, j);
            match queue.iter().position(|&put| put == (cell.index, cell.item)) {
                Some(at) => {
                    (format!("index {} ≥ {mark}: queued, no. {}", cell.index, at + 1), QUEUED.0)
                }
                None if cell.item == 0 => ("blank".to_string(), PLAIN),
                None => (format!("index {} < {mark}: passed", cell.index), PASSED.0),
            }
        };
        let mut readings = vec![(format!("pass mark {mark}: {}", self.largest().2), LARGEST.0)];
        readings.extend((0..self.before.control.r).map(of_cell));
        readings.push((format!("Head {head}: smallest queued index"), PLAIN));
        readings.push((format!("closed {closed}: as in kept"), PLAIN));
        readings.push((format!("Tail {tail}: largest queued index + 1"), PLAIN));
        readings.push((format!("count {count}"), PLAIN));
        readings
    }

    /// What a thread was doing when the cut stopped it.
    fn doing(&self, t: u32) -> String {
        let thread = self.before.control.thread[t as usize];
        let doing = match thread.place {
            IDLE => "idle".to_string(),
            P1..=P10 => format!("a put of item {}", thread.item),
            _ => format!("a take that drew number {}", thread.number),
        };
        let gone = self.gone_with(t).map(|item| format!(": item {item} is gone with it"));
        format!("thread {t}: {doing}{}", gone.unwrap_or_default())
    }
}

const TITLE: &str = "A cut: running, kept, what recovery reads";
const LOSES: &str = "Running memory is lost at a cut, and so is what the threads were doing. \
    Kept memory survives. Recovery reads kept alone.";
const QUEUES: &str = "Queued: occupied (item not 0), index at or above the pass mark. \
    Passed: occupied and below it; it becomes blank, index + R.";
const LEAVES: &str = "Kept's Tail is not read. \
    After the cut every safe is 1, and every mark and copy is Head.";

// The colours, and what the legend says of each.
const LOST: (&str, &str) = ("#f6b8ae", "not written back: lost");
const LARGEST: (&str, &str) = ("#ffe08a", "largest mark or copy");
const QUEUED: (&str, &str) = ("#c5e8c0", "queued");
const PASSED: (&str, &str) = ("#d8d8d8", "passed");
const CHANGED: (&str, &str) = ("#bcdcf5", "changed by recovery");
const PLAIN: &str = "#fff";

// Where the four columns begin, how wide their parts are, and where their rows stand.
const RUNNING: i32 = 20;
const KEPT: i32 = 256;
const READ: i32 = 492;
const AFTER: i32 = 782;
const NAME: i32 = 52;
const NUMBER: i32 = 36;
const TABLE: i32 = NAME + 4 * NUMBER;
const READING: i32 = 250;
const TOP: i32 = 150;
const HIGH: i32 = 26;

/// The table of an image. The numbers that differ from another image's have this colour.
fn table(drawing: &mut Drawing, x: i32, scene: &Scene, image: &[u32], other: &[u32], fill: &str) {
    let left = |column: usize| x + NAME + NUMBER * column as i32;
    for (column, name) in ["safe", "index", "item", "mark"].iter().enumerate() {
        drawing.text(left(column) + NUMBER / 2, TOP - 6, MIDDLE_SMALL, name);
    }
    let rows = scene.rows(image).into_iter().zip(scene.rows(other));
    for (((name, numbers), (_, others)), row) in rows.zip(0..) {
        let y = TOP + HIGH * row;
        drawing.text(x, y + HIGH / 2 + 5, LEFT, &name);
        for (column, number) in numbers.iter().enumerate() {
            let fill = if *number == others[column] { PLAIN } else { fill };
            drawing.boxed([left(column), y, NUMBER, HIGH], 0, fill, &number.to_string());
        }
    }
}

/// What recovery reads, beside the table of kept, with an arrow from the number that is the pass mark.
fn readings(drawing: &mut Drawing, scene: &Scene) {
    for ((words, fill), row) in scene.readings().iter().zip(-1..) {
        drawing.boxed([READ, TOP + HIGH * row, READING, HIGH], 0, fill, words);
    }
    let (row, column, _) = scene.largest();
    let (x, y) = (KEPT + NAME + NUMBER * column as i32, TOP + HIGH * row as i32);
    let number = scene.rows(&scene.before.kept)[row].1[column];
    drawing.boxed([x, y, NUMBER, HIGH], 0, LARGEST.0, &number.to_string());
    let (edge, y, up) = (x + NUMBER, y + HIGH / 2, TOP - HIGH / 2);
    drawing.arrow(&format!("M {edge} {y} C {READ} {y}, {edge} {up}, {READ} {up}"));
}

/// The names of the four columns, with arrows from kept to what is read from it and what that leaves.
fn names(drawing: &mut Drawing) {
    let y = TOP - 40;
    drawing.text(RUNNING + TABLE / 2, y, MIDDLE_BOLD, "running: lost");
    drawing.text(KEPT + TABLE / 2, y, MIDDLE_BOLD, "kept: survives");
    drawing.text(READ + READING / 2, y, MIDDLE_BOLD, "what recovery reads");
    drawing.text(AFTER + TABLE / 2, y, MIDDLE_BOLD, "both, after the cut");
    for (from, to) in [(KEPT + TABLE, READ), (READ + READING, AFTER)] {
        drawing.arrow(&format!("M {} {} L {} {}", from, y - 5, to, y - 5));
    }
}

/// What the picture is about, and the run that it shows.
fn heading(drawing: &mut Drawing, scene: &Scene) {
    let Control { r, n, events, .. } = scene.before.control;
    let items: Vec<String> = scene.confirmed.iter().map(|(_, item)| item.to_string()).collect();
    let run = format!(
        "Here: examples/case_g.ring, R {r}, n {n}. After {events} events, with items {} confirmed, the power fails.",
        items.join(", ")
    );
    drawing.text(RUNNING, 30, "font-size=\"18\" font-weight=\"bold\"", TITLE);
    drawing.text(RUNNING, 54, LEFT, LOSES);
    drawing.text(RUNNING, 76, LEFT, &run);
}

/// The threads that the cut stops, and the queue that it leaves.
fn below(drawing: &mut Drawing, scene: &Scene) {
    drawing.text(RUNNING, 390, BOLD, "the threads, right before the cut: lost");
    for t in 0..scene.before.control.n {
        drawing.text(RUNNING, 414 + 22 * t as i32, LEFT, &scene.doing(t));
    }
    drawing.text(READ, 390, BOLD, "the queue after the cut (index: item), by rising index");
    for ((index, item), x) in scene.after.queue().into_iter().zip((READ..).step_by(84)) {
        drawing.boxed([x, 404, 74, HIGH], 8, QUEUED.0, &format!("{index}: {item}"));
    }
}

fn legend(drawing: &mut Drawing) {
    let colours = [LOST, LARGEST, QUEUED, PASSED, CHANGED];
    for ((fill, words), x) in colours.into_iter().zip((RUNNING..).step_by(195)) {
        drawing.rect([x, 487, 18, 16], 0, fill);
        drawing.text(x + 26, 500, LEFT, words);
    }
    drawing.text(RUNNING, 526, LEFT, QUEUES);
    drawing.text(RUNNING, 546, LEFT, LEAVES);
}

pub fn svg(script: &str) -> String {
    let scene = scene(script);
    let (running, kept, after) = (&scene.before.running, &scene.before.kept, &scene.after.kept);
    let mut drawing = Drawing::new(TITLE, 1000, 560);
    heading(&mut drawing, &scene);
    names(&mut drawing);
    table(&mut drawing, RUNNING, &scene, running, kept, LOST.0);
    table(&mut drawing, KEPT, &scene, kept, running, LOST.0);
    readings(&mut drawing, &scene);
    table(&mut drawing, AFTER, &scene, after, kept, CHANGED.0);
    below(&mut drawing, &scene);
    legend(&mut drawing);
    drawing.end()
}
