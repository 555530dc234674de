//! What the inserted lines of the counting build report: sorts and nodes made, nodes given back,
//! choices, dropped prefixes. Stops the search where a ceiling would be passed.

use std::cell::RefCell;
use std::panic;

use lists::memory::Ceilings;
use lists::memory::Memory;
use lists::verdict::Event;
use lists::verdict::Tally;

use crate::ResolvedSort;

/// Thrown through the search when room ends. Not a panic of the Rust: no message is printed.
#[derive(Clone, Copy, Debug, Eq, PartialEq)]
pub enum OutOfRoom {
    Sorts,
    Nodes,
}

impl OutOfRoom {
    pub fn code(self) -> u16 {
        match self {
            OutOfRoom::Sorts => 15,
            OutOfRoom::Nodes => 16,
        }
    }
}

/// Rows and argument entries.
#[derive(Clone, Copy, Debug, Default, Eq, PartialEq)]
pub struct Room {
    rows: usize,
    entries: usize,
}

impl Room {
    fn with_row(self, entries: usize) -> Room {
        Room { rows: self.rows + 1, entries: self.entries + entries }
    }

    fn exceeds(self, rows: usize, entries: usize) -> bool {
        self.rows > rows || self.entries > entries
    }
}

#[derive(Default)]
struct Ledger {
    /// Off while a list is put in.
    counting: bool,
    ceilings: Ceilings,
    sorts: Room,
    nodes: Room,
    given_nodes: Room,
    /// Expression and position of each overload chosen on the current path.
    path: Vec<(u16, u16)>,
    tally: Tally,
}

thread_local! {
    static LEDGER: RefCell<Ledger> = RefCell::default();
}

fn with<T>(use_ledger: impl FnOnce(&mut Ledger) -> T) -> T {
    LEDGER.with(|ledger| use_ledger(&mut ledger.borrow_mut()))
}

/// Begins to count, from the rows that the list gives.
pub fn begin(memory: &Memory) {
    let nodes = Room { rows: memory.node_count, entries: memory.node_entry_count };
    with(|ledger| {
        *ledger = Ledger {
            counting: true,
            ceilings: memory.ceilings,
            sorts: Room { rows: memory.sort_count, entries: memory.entry_count },
            nodes,
            given_nodes: nodes,
            ..Ledger::default()
        }
    });
}

/// Stops counting and hands over what was counted.
pub fn end() -> Tally {
    with(std::mem::take).tally
}

pub(crate) fn sort_made(sort: &ResolvedSort) {
    let entries = match sort {
        ResolvedSort::Function { domain, .. } => domain.len(),
        _ => 0,
    };
    let full = with(|ledger| ledger.sort_made(entries));
    if full {
        panic::resume_unwind(Box::new(OutOfRoom::Sorts));
    }
}

pub(crate) fn node_made(entries: usize) {
    let full = with(|ledger| ledger.node_made(entries));
    if full {
        panic::resume_unwind(Box::new(OutOfRoom::Nodes));
    }
}

pub(crate) fn nodes_in_use() -> Room {
    with(|ledger| ledger.nodes)
}

pub(crate) fn give_back_to(before: Room) {
    with(|ledger| {
        let nodes = ledger.nodes.rows - before.rows;
        if nodes > 0 {
            ledger.tally.events.push(Event::GiveBack { nodes });
        }
        ledger.nodes = before;
    });
}

pub(crate) fn assert_no_nodes_since(before: Room) {
    assert_eq!(nodes_in_use(), before, "two sides without a list made no nodes");
}

pub(crate) fn dropped() {
    with(|ledger| ledger.tally.dropped += 1);
}

pub(crate) fn chosen(expression: usize, position: u16) {
    with(|ledger| ledger.path.push((expression as u16, position)));
}

pub(crate) fn unchosen() {
    with(|ledger| ledger.path.pop());
}

pub(crate) fn keep_choices() {
    with(|ledger| ledger.tally.choices = ledger.path.clone());
}

impl Ledger {
    /// Counts a sort; returns whether it passes a ceiling.
    fn sort_made(&mut self, entries: usize) -> bool {
        if !self.counting {
            return false;
        }
        self.sorts = self.sorts.with_row(entries);
        self.tally.events.push(Event::Sort { entries });
        self.sorts.exceeds(self.ceilings.sorts, self.ceilings.entries)
    }

    /// Counts a node; returns whether it passes a ceiling.
    fn node_made(&mut self, entries: usize) -> bool {
        self.nodes = self.nodes.with_row(entries);
        let tally = &mut self.tally;
        tally.nodes_made += 1;
        tally.node_entries_made += entries;
        tally.nodes_peak = tally.nodes_peak.max(self.nodes.rows - self.given_nodes.rows);
        tally.node_entries_peak = tally.node_entries_peak.max(self.nodes.entries - self.given_nodes.entries);
        tally.events.push(Event::Node { entries });
        self.nodes.exceeds(self.ceilings.nodes, self.ceilings.node_entries)
    }
}
