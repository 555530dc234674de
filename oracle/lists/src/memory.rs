//! The memory form of a list, as the port is handed it: slices of 16-bit words with counts.

use crate::verdict::Shape;

/// Ceilings on what may be given.
pub const MAX_SORTS: usize = 1024;
pub const MAX_ENTRIES: usize = 4096;
pub const MAX_NODES: usize = 2048;
pub const MAX_NODE_ENTRIES: usize = 4096;
pub const MAX_VARIABLES: usize = 512;
pub const MAX_EXPRESSIONS: usize = 512;
pub const MAX_CONSTRAINTS: usize = 256;
pub const MAX_OVERLOADS: usize = 1024;
pub const MAX_SOURCES: usize = 256;
pub const MAX_COMPONENTS: usize = 256;
pub const MAX_ARGUMENTS: usize = 16;

/// Words of a row in each list.
pub const ROW: usize = 4;
pub const NAME: usize = 3;
pub const OVERLOAD: usize = 3;
pub const CONSTRAINT: usize = 5;

/// Where the argument entries begin in sort and node storage.
pub const ENTRIES_AT: usize = MAX_SORTS * ROW;
pub const NODE_ENTRIES_AT: usize = MAX_NODES * ROW;

/// Lengths in words below which storage is too short.
pub const SORT_STORAGE: usize = ENTRIES_AT + MAX_ENTRIES;
pub const NODE_STORAGE: usize = NODE_ENTRIES_AT + MAX_NODE_ENTRIES;
pub const SCRATCH: usize = 4096;
pub const INDEX: usize = 2048;

/// The binding of a free variable.
pub const FREE: u16 = 65_535;

/// The first place that is a node; places below are sorts.
pub const FIRST_NODE: u16 = 1024;

/// Kinds of sorts and nodes. The first six are also the numbers of the fixed sorts.
pub mod kind {
    pub const UNIT: u16 = 0;
    pub const BOOL: u16 = 1;
    pub const POS: u16 = 2;
    pub const NAT: u16 = 3;
    pub const INT: u16 = 4;
    pub const REAL: u16 = 5;
    pub const LIST: u16 = 6;
    pub const SET: u16 = 7;
    pub const FSET: u16 = 8;
    pub const BAG: u16 = 9;
    pub const FBAG: u16 = 10;
    pub const FUNCTION: u16 = 11;
    pub const DEF: u16 = 12;
    pub const TYPE_VAR: u16 = 13;
    pub const VARIABLE: u16 = 14;
}

/// Kinds of constraints.
pub mod constraint {
    pub const SUB: u16 = 0;
    pub const LIT: u16 = 1;
    pub const DISJUNCTION: u16 = 2;
    pub const COMPREHENSION: u16 = 3;
    pub const JOIN: u16 = 4;
}

/// Kinds of name targets; `NONE` stands in outputs only.
pub mod target {
    pub const NONE: u16 = 0;
    pub const VARIABLE: u16 = 1;
    pub const OP: u16 = 2;
    pub const BUILTIN: u16 = 3;
}

/// Kinds of literals.
pub mod literal {
    pub const POSITIVE: u16 = 0;
    pub const NATURAL: u16 = 1;
}

/// What a word in a place says: a sort by number, or a node by number.
#[derive(Clone, Copy, Debug, Eq, PartialEq)]
pub enum Place {
    Sort(u16),
    Node(u16),
}

impl Place {
    pub fn of(word: u16) -> Place {
        match word.checked_sub(FIRST_NODE) {
            None => Place::Sort(word),
            Some(node) => Place::Node(node),
        }
    }

    pub fn word(self) -> u16 {
        match self {
            Place::Sort(sort) => sort,
            Place::Node(node) => FIRST_NODE + node,
        }
    }
}

/// One row of sort or node storage.
#[derive(Clone, Copy, Debug, Eq, PartialEq)]
pub struct Row {
    pub kind: u16,
    /// Container part, function range, or number of a Def, TypeVar or variable.
    pub part: u16,
    /// The run of a function's arguments in the entry list.
    pub start: u16,
    pub count: u16,
}

impl Row {
    /// A row without arguments; the words of the run are zero.
    pub fn plain(kind: u16, part: u16) -> Row {
        Row { kind, part, start: 0, count: 0 }
    }

    pub fn of(words: &[u16]) -> Row {
        Row { kind: words[0], part: words[1], start: words[2], count: words[3] }
    }

    pub fn words(self) -> [u16; ROW] {
        [self.kind, self.part, self.start, self.count]
    }

    pub fn is_container(self) -> bool {
        (kind::LIST..=kind::FBAG).contains(&self.kind)
    }
}

/// Ceilings on what the search may have in storage, given rows included.
#[derive(Clone, Copy, Debug, Eq, PartialEq)]
pub struct Ceilings {
    pub sorts: usize,
    pub entries: usize,
    pub nodes: usize,
    pub node_entries: usize,
}

impl Ceilings {
    pub const NONE: Ceilings =
        Ceilings { sorts: usize::MAX, entries: usize::MAX, nodes: usize::MAX, node_entries: usize::MAX };
}

impl Default for Ceilings {
    fn default() -> Self {
        Ceilings { sorts: MAX_SORTS, entries: MAX_ENTRIES, nodes: MAX_NODES, node_entries: MAX_NODE_ENTRIES }
    }
}

/// All that a call is lent. Slices have the lent lengths; counts stand beside them. Of outputs,
/// scratch and index only the lengths matter here.
#[derive(Clone, Debug, Default)]
pub struct Memory {
    pub sorts: Vec<u16>,
    pub sort_count: usize,
    pub entry_count: usize,
    pub nodes: Vec<u16>,
    pub node_count: usize,
    pub node_entry_count: usize,
    pub bindings: Vec<u16>,
    pub variable_count: usize,
    pub exprs: Vec<u16>,
    pub expr_count: usize,
    pub names: Vec<u16>,
    pub name_count: usize,
    pub constraints: Vec<u16>,
    pub constraint_count: usize,
    pub overloads: Vec<u16>,
    pub overload_count: usize,
    pub sources: Vec<u16>,
    pub source_count: usize,
    pub default: u16,
    pub scratch: usize,
    pub index: usize,
    pub out_typing: usize,
    pub out_measure: usize,
    pub out_choices: usize,
    /// For the counting oracle; the port has the document's.
    pub ceilings: Ceilings,
}

impl Memory {
    /// A list of sorts alone: rows, and entries from their fixed place on. An index is lent beside it.
    pub fn of_sorts(sorts: Vec<u16>, sort_count: usize, entry_count: usize) -> Memory {
        Memory { sorts, sort_count, entry_count, index: INDEX, ..Memory::default() }
    }

    pub fn sort(&self, number: usize) -> Row {
        Row::of(&self.sorts[number * ROW..][..ROW])
    }

    /// The sort of a row, without the words that its kind does not use.
    pub fn shape(&self, number: usize) -> Shape {
        let row = self.sort(number);
        let part = if row.kind <= kind::REAL { 0 } else { row.part };
        let arguments = if row.kind == kind::FUNCTION { self.sort_arguments(row).to_vec() } else { Vec::new() };
        Shape { kind: row.kind, part, arguments }
    }

    pub fn node(&self, number: usize) -> Row {
        Row::of(&self.nodes[number * ROW..][..ROW])
    }

    pub fn name(&self, index: usize) -> &[u16] {
        &self.names[index * NAME..][..NAME]
    }

    pub fn constraint(&self, index: usize) -> &[u16] {
        &self.constraints[index * CONSTRAINT..][..CONSTRAINT]
    }

    pub fn overload(&self, index: usize) -> &[u16] {
        &self.overloads[index * OVERLOAD..][..OVERLOAD]
    }

    /// The arguments of a function sort whose run is inside its list.
    pub fn sort_arguments(&self, row: Row) -> &[u16] {
        run(&self.sorts, ENTRIES_AT, row)
    }

    /// The arguments of a function node whose run is inside its list.
    pub fn node_arguments(&self, row: Row) -> &[u16] {
        run(&self.nodes, NODE_ENTRIES_AT, row)
    }

    pub fn constraints(&self) -> impl Iterator<Item = &[u16]> {
        (0..self.constraint_count).map(|index| self.constraint(index))
    }

    /// How many components a measure of this list has: one per Sub, per Lit, per Join source.
    pub fn components(&self) -> usize {
        self.constraints()
            .map(|row| match row[0] {
                constraint::SUB | constraint::LIT => 1,
                constraint::JOIN => usize::from(row[3]),
                _ => 0,
            })
            .sum()
    }

    pub fn disjunctions(&self) -> usize {
        self.constraints().filter(|row| row[0] == constraint::DISJUNCTION).count()
    }
}

/// The run of a row. An empty one needs no words: the slice may end before the entries.
fn run(words: &[u16], entries_at: usize, row: Row) -> &[u16] {
    match row.count {
        0 => &[],
        count => &words[entries_at + usize::from(row.start)..][..usize::from(count)],
    }
}
