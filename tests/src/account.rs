//! The account of demand 3: pass mark and queue worked out from answers alone, and its agreement
//! with a cut.

use crate::answer::Answer;
use crate::machine::Line;

/// What the account keeps: what the last cut left, and the answers since.
#[derive(Clone, Debug, Default)]
pub struct Account {
    /// Head after the last cut, 0 at first.
    head: u32,
    /// Number and item of what the last cut queued.
    queued: Vec<(u32, u32)>,
    /// Whether closed was 1 after the last cut.
    closed: bool,
    answers: Vec<Answer>,
}

impl Account {
    /// Hears an answer other than a cut.
    pub fn note(&mut self, answer: Answer) {
        self.answers.push(answer);
    }

    /// Whether the line was written after the answer at this place.
    fn written_since(&self, place: usize, line: Line) -> bool {
        self.answers[place + 1..].contains(&Answer::Written(line))
    }

    /// The largest of: Head after the last cut; each *copied* value whose copy was written since;
    /// number + 1 for each *took* or *passed* whose cell was written since.
    pub fn pass_mark(&self) -> u32 {
        let mut mark = self.head;
        for (place, answer) in self.answers.iter().enumerate() {
            let (line, value) = match *answer {
                Answer::Copied(t, _, value) => (Line::Copy(t), value),
                Answer::Took(_, number, j, _) => (Line::Cell(j), number + 1),
                Answer::Passed(_, number, j) => (Line::Cell(j), number + 1),
                _ => continue,
            };
            if value > mark && self.written_since(place, line) {
                mark = value;
            }
        }
        mark
    }

    /// Items queued by the last cut, under their numbers, and those *landed* whose cell was written
    /// since landing, with number at least the pass mark, in order of number.
    pub fn queue(&self) -> Vec<(u32, u32)> {
        let mark = self.pass_mark();
        let mut queue = self.queued.clone();
        for (place, answer) in self.answers.iter().enumerate() {
            if let Answer::Landed(_, number, j, item) = *answer {
                if self.written_since(place, Line::Cell(j)) {
                    queue.push((number, item));
                }
            }
        }
        queue.retain(|&(number, _)| number >= mark);
        queue.sort();
        queue
    }

    /// Closed after the last cut, or set since and the Tail line written after that.
    fn closed(&self) -> bool {
        let set = |answer: &Answer| matches!(answer, Answer::SetClosed(..));
        let place = self.answers.iter().position(set);
        self.closed || place.is_some_and(|place| self.written_since(place, Line::Tail))
    }

    /// Agreement at a cut: its answer and the queue that recovery read (number and item) are the
    /// account's. Then the account starts anew from what the cut left.
    pub fn cut(&mut self, answer: Answer, recovered: &[(u32, u32)]) -> Result<(), String> {
        let mark = self.pass_mark();
        let queue = self.queue();
        let head = queue.first().map_or(mark, |first| first.0);
        let tail = queue.last().map_or(mark, |last| last.0 + 1);
        let closed = self.closed();
        let own = Answer::Cut(mark, head, tail, closed as u32, queue.len() as u32);
        if answer != own {
            return Err(format!("the cut answers {answer:?}, the account says {own:?}"));
        }
        if recovered != queue {
            return Err(format!("recovery queues {recovered:?}, the account says {queue:?}"));
        }
        *self = Account { head, queued: queue, closed, answers: Vec::new() };
        Ok(())
    }
}
