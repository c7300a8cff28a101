//! A small deterministic generator, and random runs that bring every row to every outcome.

use crate::check::{Ring, Shape};
use crate::machine::{Control, Event, Line, IDLE, P2, P3, P4, T2, T3, T4, T5};
use crate::memory::tail_at;

/// splitmix64.
pub struct Random(pub u64);

impl Random {
    pub fn draw(&mut self) -> u64 {
        self.0 = self.0.wrapping_add(0x9e37_79b9_7f4a_7c15);
        let mut z = self.0;
        z = (z ^ (z >> 30)).wrapping_mul(0xbf58_476d_1ce4_e5b9);
        z = (z ^ (z >> 27)).wrapping_mul(0x94d0_49bb_1331_11eb);
        z ^ (z >> 31)
    }

    /// A number below the limit, which isn't 0.
    pub fn below(&mut self, limit: u32) -> u32 {
        (self.draw() % u64::from(limit)) as u32
    }

    /// From the first to the last, both included.
    pub fn within(&mut self, first: u32, last: u32) -> u32 {
        first + self.below(last - first + 1)
    }

    pub fn chance(&mut self, percent: u32) -> bool {
        self.below(100) < percent
    }

    pub fn pick<T: Copy>(&mut self, of: &[T]) -> T {
        of[self.below(of.len() as u32) as usize]
    }
}

/// A small ring; small S are favoured.
pub fn shape(random: &mut Random, most_cells: u32, most_threads: u32, most_tries: u32) -> Shape {
    let small = random.chance(80);
    Shape {
        r: random.within(1, most_cells),
        n: random.within(1, most_threads),
        s: random.within(1, if small { most_tries.min(4) } else { most_tries }),
    }
}

/// What a run does more or less of; percents.
struct Habits {
    cut: u32,
    stray: u32,
    back: u32,
    back_tail: u32,
    against_the_queue: u32,
    /// How often a turn is let pass: of each thread, and of any thread that is about to look at
    /// its cell or to change it.
    slow: [u32; 8],
    linger: u32,
}

impl Habits {
    fn new(random: &mut Random) -> Habits {
        Habits {
            cut: random.pick(&[0, 1, 1, 2, 4]),
            stray: random.pick(&[0, 1, 5]),
            back: random.pick(&[2, 10, 25]),
            back_tail: random.pick(&[0, 0, 5, 50]),
            against_the_queue: random.pick(&[5, 20, 50]),
            slow: std::array::from_fn(|_| random.pick(&[0, 0, 50, 90, 97])),
            linger: random.pick(&[0, 50, 85]),
        }
    }

    /// Whose turn it is.
    fn turn(&self, random: &mut Random, control: &Control) -> u32 {
        let mut t = random.below(control.n);
        for _ in 0..8 {
            let place = control.thread[t as usize].place;
            let at_cell = [P2, P3, P4, T2, T3, T4, T5].contains(&place);
            let pass =
                random.chance(self.slow[t as usize]) || at_cell && random.chance(self.linger);
            if !pass {
                break;
            }
            t = random.below(control.n);
        }
        t
    }
}

/// A run of that many events on a fresh ring. Some of them may be refused.
pub fn run(random: &mut Random, shape: Shape, length: u32) -> Vec<Event> {
    let habits = Habits::new(random);
    let mut ring = Ring::fresh(shape);
    let mut events = Vec::new();
    for _ in 0..length {
        let event = next(random, &habits, &ring);
        ring.event(event);
        events.push(event);
    }
    events
}

fn next(random: &mut Random, habits: &Habits, ring: &Ring) -> Event {
    let control = &ring.control;
    if random.chance(habits.cut) {
        return Event::Cut;
    }
    if random.chance(habits.stray) {
        return stray(random, control);
    }
    if random.chance(habits.back) {
        return Event::Back(line(random, habits, control));
    }
    let t = habits.turn(random, control);
    let thread = control.thread[t as usize];
    if thread.place == IDLE {
        return begin(random, habits, ring, t);
    }
    match thread.line {
        Line::None => Event::Step(t),
        Line::Tail if random.chance(habits.back_tail) => Event::Back(Line::Tail),
        Line::Tail if random.chance(5 * habits.cut) => Event::Cut,
        Line::Cell(_) | Line::Copy(_) if random.chance(60) => Event::Back(thread.line),
        _ => Event::Step(t),
    }
}

/// Any line that exists. Tail comes as often as the run's habit has it.
fn line(random: &mut Random, habits: &Habits, control: &Control) -> Line {
    if random.chance(habits.back_tail) {
        return Line::Tail;
    }
    if random.chance(70) {
        Line::Cell(random.below(control.r))
    } else {
        Line::Copy(random.below(control.n))
    }
}

/// A put while there is room, a take while there is something to take, or against that.
fn begin(random: &mut Random, habits: &Habits, ring: &Ring, t: u32) -> Event {
    let control = &ring.control;
    let tail = ring.running[tail_at(control.r, control.n)];
    let filled = tail.saturating_sub(control.head);
    let mut put = random.below(control.r) >= filled;
    if random.chance(habits.against_the_queue) {
        put = !put;
    }
    if put {
        Event::Put(t, item(random, control))
    } else {
        Event::Take(t)
    }
}

/// Mostly an item that no other put has; now and then one of a few.
fn item(random: &mut Random, control: &Control) -> u32 {
    if random.chance(90) {
        1000 + control.events
    } else {
        random.pick(&[1, 7, u32::MAX])
    }
}

/// An event that may well be refused.
fn stray(random: &mut Random, control: &Control) -> Event {
    let t = random.below(control.n + 2);
    let j = random.below(control.r + 2);
    let far = random.pick(&[8, 64, u32::MAX]);
    match random.below(10) {
        0 => Event::Put(t, 0),
        1 => Event::Put(t, item(random, control)),
        2 => Event::Put(far, item(random, control)),
        3 => Event::Take(t),
        4 => Event::Take(far),
        5 => Event::Step(t),
        6 => Event::Step(far),
        7 => Event::Back(Line::Cell(j)),
        8 => Event::Back(Line::Copy(t)),
        _ => Event::Back(random.pick(&[Line::Cell(far), Line::Copy(far)])),
    }
}
