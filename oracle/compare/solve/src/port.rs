//! The entries of the port's library, or the stand-in. A slice passes as pointer and length.

use lists::memory::Memory;

use crate::call::Lent;
use crate::fault::Fault;
use crate::stand_in;

/// What [Port::Library] is in this build.
pub const LIBRARY: &str = if cfg!(feature = "stand-in") { "the stand-in" } else { "the port" };

/// The entries of the library, which differ in how the overloads are handed over.
#[derive(Clone, Copy, Debug, Eq, PartialEq)]
pub enum Entry {
    /// `sort_solve`: three words to an overload, and the number of words.
    Words,
    /// `sort_solve_records`: records, and their number. They are the whole rows of the words that are lent; as a count fits in these
    /// exactly if it fits in the words, the answer is the same, also where a word or two are left over.
    Records,
}

impl Entry {
    pub const ALL: [(Entry, &'static str); 2] = [(Entry::Words, "sort_solve"), (Entry::Records, "sort_solve_records")];
}

/// What is asked: an entry of the library, or a stand-in that has a fault.
#[derive(Clone, Copy)]
pub enum Port {
    Library(Entry),
    Wrong(Fault),
}

impl Port {
    /// Asks about the slices between their guard words; the counts and the default are those of `memory`.
    pub fn ask(self, lent: &mut Lent, memory: &Memory) -> u64 {
        match self {
            Port::Library(entry) => library(entry, lent, memory),
            Port::Wrong(fault) => stand_in::ask(Some(fault), lent, memory),
        }
    }
}

#[cfg(feature = "stand-in")]
fn library(_: Entry, lent: &mut Lent, memory: &Memory) -> u64 {
    stand_in::ask(None, lent, memory)
}

#[cfg(not(feature = "stand-in"))]
use linked::library;

#[cfg(not(feature = "stand-in"))]
mod linked {
    use common::guard::GUARD;
    use lists::memory::Memory;
    use lists::memory::OVERLOAD;

    use super::Entry;
    use crate::call::Lent;
    use crate::call::Slice;

    /// An overload as `sort_solve_records` has it: kind of target, its sort, place.
    #[repr(C)]
    struct Record {
        words: [u16; OVERLOAD],
    }

    /// Declares an entry whose overloads are handed over as rows of a type, and calls it.
    macro_rules! call {
        ($entry:ident, $row:ty, $lent:expr, $memory:expr) => {{
            unsafe extern "C" {
                fn $entry(
                    sorts: *mut u16,
                    sorts_len: usize,
                    sort_count: usize,
                    entry_count: usize,
                    nodes: *mut u16,
                    nodes_len: usize,
                    node_count: usize,
                    node_entry_count: usize,
                    binds: *mut u16,
                    binds_len: usize,
                    var_count: usize,
                    exprs: *const u16,
                    exprs_len: usize,
                    expr_count: usize,
                    names: *const u16,
                    names_len: usize,
                    name_count: usize,
                    constraints: *const u16,
                    constraints_len: usize,
                    constraint_count: usize,
                    overloads: *const $row,
                    overloads_len: usize,
                    overload_count: usize,
                    sources: *const u16,
                    sources_len: usize,
                    source_count: usize,
                    default: u16,
                    scratch: *mut u16,
                    scratch_len: usize,
                    index: *mut u16,
                    index_len: usize,
                    typing: *mut u16,
                    typing_len: usize,
                    measure: *mut u16,
                    measure_len: usize,
                    choices: *mut u16,
                    choices_len: usize,
                ) -> u64;
            }
            let (lent, memory): (&mut Lent, &Memory) = ($lent, $memory);
            let lengths = Slice::ALL.map(|(slice, _)| lent.slices[slice as usize].len() - 2 * GUARD);
            // SAFETY: there are guard words, so that the first word is inside the buffer.
            let words = Slice::ALL.map(|(slice, _)| unsafe { lent.slices[slice as usize].as_mut_ptr().add(GUARD) });
            // SAFETY: each pointer and length is a part of a buffer that is borrowed mutably for the call, also where
            // words are counted by the row. The counts and the words may be anything.
            unsafe {
                $entry(
                    words[Slice::Sorts as usize],
                    lengths[Slice::Sorts as usize],
                    memory.sort_count,
                    memory.entry_count,
                    words[Slice::Nodes as usize],
                    lengths[Slice::Nodes as usize],
                    memory.node_count,
                    memory.node_entry_count,
                    words[Slice::Bindings as usize],
                    lengths[Slice::Bindings as usize],
                    memory.variable_count,
                    words[Slice::Exprs as usize],
                    lengths[Slice::Exprs as usize],
                    memory.expr_count,
                    words[Slice::Names as usize],
                    lengths[Slice::Names as usize],
                    memory.name_count,
                    words[Slice::Constraints as usize],
                    lengths[Slice::Constraints as usize],
                    memory.constraint_count,
                    words[Slice::Overloads as usize].cast(),
                    lengths[Slice::Overloads as usize] / (size_of::<$row>() / size_of::<u16>()),
                    memory.overload_count,
                    words[Slice::Sources as usize],
                    lengths[Slice::Sources as usize],
                    memory.source_count,
                    memory.default,
                    words[Slice::Scratch as usize],
                    lengths[Slice::Scratch as usize],
                    words[Slice::Index as usize],
                    lengths[Slice::Index as usize],
                    words[Slice::OutTyping as usize],
                    lengths[Slice::OutTyping as usize],
                    words[Slice::OutMeasure as usize],
                    lengths[Slice::OutMeasure as usize],
                    words[Slice::OutChoices as usize],
                    lengths[Slice::OutChoices as usize],
                )
            }
        }};
    }

    pub fn library(entry: Entry, lent: &mut Lent, memory: &Memory) -> u64 {
        match entry {
            Entry::Words => call!(sort_solve, u16, lent, memory),
            Entry::Records => call!(sort_solve_records, Record, lent, memory),
        }
    }
}
