//! What a call must answer and leave: from the model of the checks and from both builds of the excerpt.

use lists::checks;
use lists::memory::*;
use lists::question::Question;
use lists::verdict::Reply;
use lists::verdict::Shape;
use lists::verdict::Tally;
use lists::verdict::Verdict;
use oracle::ask::hear;

use crate::call::Call;

#[derive(Debug, Eq, PartialEq)]
pub enum Outcome {
    /// The first failing check.
    Refused(u16),
    /// 15 or 16.
    NoRoom(u16),
    /// The search ended; the sorts that are kept, in order of making.
    Searched { verdict: Verdict, new: Vec<Shape> },
}

/// What is expected of a call, and what the search did on the way.
#[derive(Debug)]
pub struct Expected {
    pub outcome: Outcome,
    pub tally: Tally,
}

impl Expected {
    /// What the judges say of a call. A message where they differ.
    pub fn of(memory: &Memory) -> Result<Expected, String> {
        if let Some(code) = checks::first_failing(memory, Question::Solve) {
            return Ok(Expected { outcome: Outcome::Refused(code), tally: Tally::default() });
        }
        let (heard, tally) = hear(memory, Question::Solve).map_err(|failure| failure.to_string())?;
        let outcome = match heard {
            Err(room) => Outcome::NoRoom(room.code()),
            Ok(heard) => match heard.reply {
                Reply::Solve(verdict) => Outcome::Searched { verdict, new: heard.new },
                other => return Err(format!("the excerpt answers {other:?}")),
            },
        };
        Ok(Expected { outcome, tally })
    }

    pub fn code(&self) -> u16 {
        match &self.outcome {
            Outcome::Refused(code) | Outcome::NoRoom(code) => *code,
            Outcome::Searched { verdict, .. } => verdict.code(),
        }
    }

    /// The answer as one number: the code; the sorts and sort entries that are kept; components and choices.
    pub fn packed(&self, memory: &Memory) -> u64 {
        let code = u64::from(self.code());
        let Outcome::Searched { verdict, new } = &self.outcome else { return code };
        let entries: usize = new.iter().map(|sort| sort.arguments.len()).sum();
        let kept = ((memory.sort_count + new.len()) as u64) << 8 | ((memory.entry_count + entries) as u64) << 24;
        let handed_out = match verdict {
            Verdict::Typing { measure, .. } => (measure.len() as u64) << 40 | (self.tally.choices.len() as u64) << 52,
            _ => 0,
        };
        code | kept | handed_out
    }

    /// Turns what a call is lent into what it leaves.
    pub fn leave(&self, call: &mut Call) {
        let memory = &mut call.memory;
        match &self.outcome {
            Outcome::Refused(_) => return,
            Outcome::NoRoom(_) => zero_past(&mut memory.sorts, memory.sort_count, ENTRIES_AT, memory.entry_count),
            Outcome::Searched { new, .. } => append(memory, new),
        }
        zero_past(&mut memory.nodes, memory.node_count, NODE_ENTRIES_AT, memory.node_entry_count);
        call.scratch.fill(0);
        call.index.fill(0);
        if let Outcome::Searched { verdict: Verdict::Typing { sorts, names, measure }, .. } = &self.outcome {
            for ((row, sort), (kind, name)) in call.typing.chunks_exact_mut(3).zip(sorts).zip(names) {
                row.copy_from_slice(&[*sort, *kind, *name]);
            }
            for (word, component) in call.measure.iter_mut().zip(measure) {
                *word = u16::from(*component);
            }
            for (row, (expression, position)) in call.choices.chunks_exact_mut(2).zip(&self.tally.choices_rising()) {
                row.copy_from_slice(&[*expression, *position]);
            }
        }
    }
}

/// Zeros past the rows and past the entries, to the end of what is lent.
fn zero_past(words: &mut [u16], rows: usize, entries_at: usize, entries: usize) {
    words[ROW * rows..entries_at].fill(0);
    words[entries_at + entries..].fill(0);
}

/// The rows and entries of new sorts after those given; words that a kind does not use are zero.
fn append(memory: &mut Memory, new: &[Shape]) {
    let mut entry = memory.entry_count;
    for (number, sort) in (memory.sort_count..).zip(new) {
        let start = if sort.kind == kind::FUNCTION { entry as u16 } else { 0 };
        let row = Row { kind: sort.kind, part: sort.part, start, count: sort.arguments.len() as u16 };
        memory.sorts[ROW * number..][..ROW].copy_from_slice(&row.words());
        memory.sorts[ENTRIES_AT + entry..][..sort.arguments.len()].copy_from_slice(&sort.arguments);
        entry += sort.arguments.len();
    }
}
