//! What the lines of one list give, before it is laid out in memory.

use crate::memory::*;

/// The lists that have a count of their own.
#[derive(Clone, Copy, Debug, Eq, PartialEq)]
pub enum Counted {
    Sorts,
    Entries,
    Nodes,
    NodeEntries,
    Vars,
    Exprs,
    Names,
    Constraints,
    Overloads,
    Sources,
}

impl Counted {
    pub const ALL: [(Counted, &'static str); 10] = [
        (Counted::Sorts, "sorts"),
        (Counted::Entries, "entries"),
        (Counted::Nodes, "nodes"),
        (Counted::NodeEntries, "node-entries"),
        (Counted::Vars, "vars"),
        (Counted::Exprs, "exprs"),
        (Counted::Names, "names"),
        (Counted::Constraints, "constraints"),
        (Counted::Overloads, "overloads"),
        (Counted::Sources, "sources"),
    ];
}

impl Counted {
    /// The most rows that a list may have. Base names have no ceiling.
    pub fn ceiling(self) -> Option<usize> {
        match self {
            Counted::Sorts => Some(MAX_SORTS),
            Counted::Entries => Some(MAX_ENTRIES),
            Counted::Nodes => Some(MAX_NODES),
            Counted::NodeEntries => Some(MAX_NODE_ENTRIES),
            Counted::Vars => Some(MAX_VARIABLES),
            Counted::Exprs => Some(MAX_EXPRESSIONS),
            Counted::Names => None,
            Counted::Constraints => Some(MAX_CONSTRAINTS),
            Counted::Overloads => Some(MAX_OVERLOADS),
            Counted::Sources => Some(MAX_SOURCES),
        }
    }

    /// The slice that holds a list, the word at which its rows begin there, and the words of a row.
    pub fn place(self) -> (Lent, usize, usize) {
        match self {
            Counted::Sorts => (Lent::Sorts, 0, ROW),
            Counted::Entries => (Lent::Sorts, ENTRIES_AT, 1),
            Counted::Nodes => (Lent::Nodes, 0, ROW),
            Counted::NodeEntries => (Lent::Nodes, NODE_ENTRIES_AT, 1),
            Counted::Vars => (Lent::Bindings, 0, 1),
            Counted::Exprs => (Lent::Exprs, 0, 1),
            Counted::Names => (Lent::Names, 0, NAME),
            Counted::Constraints => (Lent::Constraints, 0, CONSTRAINT),
            Counted::Overloads => (Lent::Overloads, 0, OVERLOAD),
            Counted::Sources => (Lent::Sources, 0, 1),
        }
    }
}

impl Memory {
    /// The count that the call is told of a list.
    pub fn count(&self, list: Counted) -> usize {
        match list {
            Counted::Sorts => self.sort_count,
            Counted::Entries => self.entry_count,
            Counted::Nodes => self.node_count,
            Counted::NodeEntries => self.node_entry_count,
            Counted::Vars => self.variable_count,
            Counted::Exprs => self.expr_count,
            Counted::Names => self.name_count,
            Counted::Constraints => self.constraint_count,
            Counted::Overloads => self.overload_count,
            Counted::Sources => self.source_count,
        }
    }

    pub fn count_mut(&mut self, list: Counted) -> &mut usize {
        match list {
            Counted::Sorts => &mut self.sort_count,
            Counted::Entries => &mut self.entry_count,
            Counted::Nodes => &mut self.node_count,
            Counted::NodeEntries => &mut self.node_entry_count,
            Counted::Vars => &mut self.variable_count,
            Counted::Exprs => &mut self.expr_count,
            Counted::Names => &mut self.name_count,
            Counted::Constraints => &mut self.constraint_count,
            Counted::Overloads => &mut self.overload_count,
            Counted::Sources => &mut self.source_count,
        }
    }
}

/// The slices that are lent.
#[derive(Clone, Copy, Debug, Eq, PartialEq)]
pub enum Lent {
    Sorts,
    Nodes,
    Bindings,
    Exprs,
    Names,
    Constraints,
    Overloads,
    Sources,
    Scratch,
    Index,
    OutTyping,
    OutMeasure,
    OutChoices,
}

impl Lent {
    pub const ALL: [(Lent, &'static str); 13] = [
        (Lent::Sorts, "sorts"),
        (Lent::Nodes, "nodes"),
        (Lent::Bindings, "bindings"),
        (Lent::Exprs, "exprs"),
        (Lent::Names, "names"),
        (Lent::Constraints, "constraints"),
        (Lent::Overloads, "overloads"),
        (Lent::Sources, "sources"),
        (Lent::Scratch, "scratch"),
        (Lent::Index, "index"),
        (Lent::OutTyping, "out-typing"),
        (Lent::OutMeasure, "out-measure"),
        (Lent::OutChoices, "out-choices"),
    ];
}

/// One list as its lines give it: rows in order, and the counts and lengths that differ from
/// those of the rows.
#[derive(Clone, Debug, Eq, PartialEq)]
pub struct Given {
    pub title: String,
    pub sorts: Vec<Row>,
    pub entries: Vec<u16>,
    pub nodes: Vec<Row>,
    pub node_entries: Vec<u16>,
    pub bindings: Vec<u16>,
    pub exprs: Vec<u16>,
    pub names: Vec<[u16; NAME]>,
    pub constraints: Vec<[u16; CONSTRAINT]>,
    pub overloads: Vec<[u16; OVERLOAD]>,
    pub sources: Vec<u16>,
    pub default: u16,
    pub ceilings: Ceilings,
    counts: [Option<u16>; Counted::ALL.len()],
    lends: [Option<u16>; Lent::ALL.len()],
}

impl Given {
    /// A list that has the fixed six sorts and nothing else.
    pub fn new(title: &str) -> Given {
        Given {
            title: title.to_string(),
            sorts: (kind::UNIT..=kind::REAL).map(|kind| Row::plain(kind, 0)).collect(),
            entries: Vec::new(),
            nodes: Vec::new(),
            node_entries: Vec::new(),
            bindings: Vec::new(),
            exprs: Vec::new(),
            names: Vec::new(),
            constraints: Vec::new(),
            overloads: Vec::new(),
            sources: Vec::new(),
            default: kind::BOOL,
            ceilings: Ceilings::default(),
            counts: [None; Counted::ALL.len()],
            lends: [None; Lent::ALL.len()],
        }
    }

    pub fn set_count(&mut self, list: Counted, count: u16) {
        self.counts[list as usize] = Some(count);
    }

    pub fn set_lend(&mut self, slice: Lent, words: u16) {
        self.lends[slice as usize] = Some(words);
    }

    pub fn said_count(&self, list: Counted) -> Option<u16> {
        self.counts[list as usize]
    }

    pub fn said_lend(&self, slice: Lent) -> Option<u16> {
        self.lends[slice as usize]
    }

    /// The rows that the lines give.
    pub fn rows(&self, list: Counted) -> usize {
        match list {
            Counted::Sorts => self.sorts.len(),
            Counted::Entries => self.entries.len(),
            Counted::Nodes => self.nodes.len(),
            Counted::NodeEntries => self.node_entries.len(),
            Counted::Vars => self.bindings.len(),
            Counted::Exprs => self.exprs.len(),
            Counted::Names => self.names.len(),
            Counted::Constraints => self.constraints.len(),
            Counted::Overloads => self.overloads.len(),
            Counted::Sources => self.sources.len(),
        }
    }

    /// Takes the rows past a number of them away.
    pub fn cut_to(&mut self, rows: usize) {
        self.sorts.truncate(rows);
        self.entries.truncate(rows);
        self.nodes.truncate(rows);
        self.node_entries.truncate(rows);
        self.bindings.truncate(rows);
        self.exprs.truncate(rows);
        self.names.truncate(rows);
        self.constraints.truncate(rows);
        self.overloads.truncate(rows);
        self.sources.truncate(rows);
    }

    /// The count that the call is told.
    pub fn count(&self, list: Counted) -> usize {
        self.said_count(list).map_or(self.rows(list), usize::from)
    }

    /// Cuts or fills a slice with zeros to the length that is lent.
    fn lent(&self, slice: Lent, mut words: Vec<u16>) -> Vec<u16> {
        if let Some(length) = self.said_lend(slice) {
            words.resize(usize::from(length), 0);
        }
        words
    }

    fn length(&self, slice: Lent, needed: usize) -> usize {
        self.said_lend(slice).map_or(needed, usize::from)
    }

    /// The list laid out as the port is handed it.
    pub fn memory(&self) -> Memory {
        let mut memory = Memory {
            sorts: self.lent(Lent::Sorts, storage(&self.sorts, MAX_SORTS, &self.entries, MAX_ENTRIES)),
            sort_count: self.count(Counted::Sorts),
            entry_count: self.count(Counted::Entries),
            nodes: self.lent(Lent::Nodes, storage(&self.nodes, MAX_NODES, &self.node_entries, MAX_NODE_ENTRIES)),
            node_count: self.count(Counted::Nodes),
            node_entry_count: self.count(Counted::NodeEntries),
            bindings: self.lent(Lent::Bindings, self.bindings.clone()),
            variable_count: self.count(Counted::Vars),
            exprs: self.lent(Lent::Exprs, self.exprs.clone()),
            expr_count: self.count(Counted::Exprs),
            names: self.lent(Lent::Names, self.names.concat()),
            name_count: self.count(Counted::Names),
            constraints: self.lent(Lent::Constraints, self.constraints.concat()),
            constraint_count: self.count(Counted::Constraints),
            overloads: self.lent(Lent::Overloads, self.overloads.concat()),
            overload_count: self.count(Counted::Overloads),
            sources: self.lent(Lent::Sources, self.sources.clone()),
            source_count: self.count(Counted::Sources),
            default: self.default,
            ceilings: self.ceilings,
            ..Memory::default()
        };
        self.lend_outputs(&mut memory);
        memory
    }

    /// Outputs are lent at what the counts need, scratch and index at their full length, unless a
    /// line says otherwise.
    fn lend_outputs(&self, memory: &mut Memory) {
        let readable = memory.constraint_count * CONSTRAINT <= memory.constraints.len();
        let (components, disjunctions) = match readable {
            true => (memory.components(), memory.disjunctions()),
            false => (0, 0),
        };
        memory.scratch = self.length(Lent::Scratch, SCRATCH);
        memory.index = self.length(Lent::Index, INDEX);
        memory.out_typing = self.length(Lent::OutTyping, 3 * memory.expr_count);
        memory.out_measure = self.length(Lent::OutMeasure, components);
        memory.out_choices = self.length(Lent::OutChoices, 2 * disjunctions);
    }
}

/// Rows, then entries at their fixed place. Those past a ceiling are left out: a list that has them
/// is refused by its count.
fn storage(rows: &[Row], max_rows: usize, entries: &[u16], max_entries: usize) -> Vec<u16> {
    let mut words = vec![0; max_rows * ROW + max_entries];
    for (row, words) in rows.iter().zip(words[..max_rows * ROW].chunks_exact_mut(ROW)) {
        words.copy_from_slice(&row.words());
    }
    for (entry, word) in entries.iter().zip(&mut words[max_rows * ROW..]) {
        *word = *entry;
    }
    words
}
