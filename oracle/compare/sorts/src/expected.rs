//! What a call must answer and leave, from the model of the checks and the excerpt.

use std::cmp::Ordering;
use std::panic;

use lists::checks;
use lists::memory::*;
use lists::question::Question;
use lists::verdict::Heard;
use lists::verdict::Reply;
use lists::verdict::Shape;
use merc_counting::ledger;
use merc_counting::ledger::OutOfRoom;
use merc_plain::Lattice;

use crate::call::Call;

#[derive(Debug, Eq, PartialEq)]
pub enum Expected {
    /// The first failing check.
    Refused(u16),
    /// 15.
    NoRoom,
    /// The reply to a question that makes no sorts.
    Read(Reply),
    /// A join or meet, or none, with all sorts of the list after it and the number of entries.
    Bound { sort: Option<u16>, sorts: Vec<Shape>, entries: usize },
}

/// What is expected of a call. The plain build says it; the counting build must say the same.
pub fn expected(memory: &Memory, question: Question) -> Result<Expected, String> {
    if let Some(code) = checks::first_failing(memory, question) {
        return Ok(Expected::Refused(code));
    }
    let mut lattice = Lattice::load(memory);
    let expected = match lattice.ask(question) {
        Reply::Bound(sort) => bound(memory, sort, lattice.sorts_from(0)),
        reply => Expected::Read(reply),
    };
    let counted = counted(memory, question);
    match expected.agrees_with(&counted, memory.sort_count) {
        true => Ok(expected),
        false => Err(format!("the builds differ: plain {expected:?}, counting {counted:?}")),
    }
}

/// Rows and entries only grow, so room was met on the way exactly if it is passed at the end.
fn bound(memory: &Memory, sort: Option<u16>, sorts: Vec<Shape>) -> Expected {
    let new = &sorts[memory.sort_count..];
    let entries = memory.entry_count + new.iter().map(|sort| sort.arguments.len()).sum::<usize>();
    match sorts.len() > MAX_SORTS || entries > MAX_ENTRIES {
        true => Expected::NoRoom,
        false => Expected::Bound { sort, sorts, entries },
    }
}

/// What the counting build answers, or none if it ran out of room.
fn counted(memory: &Memory, question: Question) -> Option<Heard> {
    let counted = panic::catch_unwind(|| merc_counting::ask(memory, question));
    ledger::end();
    counted
        .map_err(|thrown| {
            if !thrown.is::<OutOfRoom>() {
                panic::resume_unwind(thrown)
            }
        })
        .ok()
}

impl Expected {
    fn agrees_with(&self, counted: &Option<Heard>, first_new: usize) -> bool {
        match (self, counted) {
            (Expected::NoRoom, None) => true,
            (Expected::Read(reply), Some(heard)) => heard.reply == *reply && heard.new.is_empty(),
            (Expected::Bound { sort, sorts, .. }, Some(heard)) => {
                heard.reply == Reply::Bound(*sort) && heard.new == sorts[first_new..]
            }
            _ => false,
        }
    }

    /// The answer as one number: the code in bits 0 to 7, then what the answer says.
    pub fn packed(&self) -> u64 {
        match self {
            Expected::Refused(code) => u64::from(*code),
            Expected::NoRoom => 15,
            Expected::Read(reply) => packed_reply(reply),
            Expected::Bound { sort, sorts, entries } => {
                let counts = (sorts.len() as u64) << 32 | (*entries as u64) << 48;
                sort.map_or(counts, |sort| counts | 1 << 8 | u64::from(sort) << 16)
            }
        }
    }

    /// Turns what a call is lent into what it leaves.
    pub fn leave(&self, call: &mut Call) {
        let memory = &mut call.memory;
        match self {
            Expected::Refused(_) | Expected::Read(_) => return,
            Expected::NoRoom => {
                memory.sorts[ROW * memory.sort_count..ENTRIES_AT].fill(0);
                memory.sorts[ENTRIES_AT + memory.entry_count..].fill(0);
            }
            Expected::Bound { sorts, .. } => append(memory, sorts),
        }
        call.index.fill(0);
    }

    /// The answer in a few words, for counting.
    pub fn label(&self) -> String {
        match self {
            Expected::Refused(code) => format!("refused {code}"),
            Expected::NoRoom => "15".to_string(),
            Expected::Read(reply) => reply_label(reply).to_string(),
            Expected::Bound { sort: None, .. } => "bound none".to_string(),
            Expected::Bound { sort: Some(_), .. } => "bound some".to_string(),
        }
    }

    /// Whether it is what a join or meet comes to that passes its checks.
    pub fn makes(&self) -> bool {
        matches!(self, Expected::NoRoom | Expected::Bound { .. })
    }

    /// How many sorts a join or meet stored.
    pub fn made(&self, memory: &Memory) -> usize {
        match self {
            Expected::Bound { sorts, .. } => sorts.len() - memory.sort_count,
            _ => 0,
        }
    }
}

fn packed_reply(reply: &Reply) -> u64 {
    match reply {
        Reply::Order(None) | Reply::Distance(None) | Reply::Materializable(false) => 0,
        Reply::Order(Some(Ordering::Equal)) | Reply::Materializable(true) => 1 << 8,
        Reply::Order(Some(Ordering::Less)) => 2 << 8,
        Reply::Order(Some(Ordering::Greater)) => 3 << 8,
        Reply::Distance(Some((head, interior))) => 1 << 8 | u64::from(*head) << 16 | u64::from(*interior) << 24,
        other => panic!("{other:?} answers no question that only reads sorts"),
    }
}

fn reply_label(reply: &Reply) -> &'static str {
    match reply {
        Reply::Order(None) => "order none",
        Reply::Order(Some(Ordering::Equal)) => "order equal",
        Reply::Order(Some(Ordering::Less)) => "order less",
        Reply::Order(Some(Ordering::Greater)) => "order greater",
        Reply::Distance(None) => "distance none",
        Reply::Distance(Some((_, 255))) => "distance with interior 255",
        Reply::Distance(Some(_)) => "distance some",
        Reply::Materializable(true) => "materializable yes",
        Reply::Materializable(false) => "materializable no",
        other => panic!("{other:?} answers no question that only reads sorts"),
    }
}

/// Writes the sorts past those of the list as rows, each new function with a run of its own.
fn append(memory: &mut Memory, sorts: &[Shape]) {
    let mut entries = memory.entry_count;
    for (number, sort) in sorts.iter().enumerate().skip(memory.sort_count) {
        let count = sort.arguments.len();
        let start = if sort.kind == kind::FUNCTION { entries } else { 0 };
        let row = Row { kind: sort.kind, part: sort.part, start: start as u16, count: count as u16 };
        memory.sorts[ROW * number..][..ROW].copy_from_slice(&row.words());
        memory.sorts[ENTRIES_AT + entries..][..count].copy_from_slice(&sort.arguments);
        entries += count;
    }
}
