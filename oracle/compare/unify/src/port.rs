//! The entry of the port's library, or the stand-in. A slice passes as pointer and length.

#[cfg(not(feature = "stand-in"))]
use common::guard::GUARD;
use lists::memory::Memory;

use crate::compare::Lent;
use crate::fault::Fault;
use crate::stand_in;

#[cfg(not(feature = "stand-in"))]
unsafe extern "C" {
    fn sort_unify(
        sorts: *const u16,
        sorts_len: usize,
        sort_count: usize,
        entry_count: usize,
        nodes: *const u16,
        nodes_len: usize,
        node_count: usize,
        node_entry_count: usize,
        bindings: *mut u16,
        bindings_len: usize,
        var_count: usize,
        lhs: u16,
        rhs: u16,
    ) -> u64;
}

/// What [Port::Library] is in this build.
pub const LIBRARY: &str = if cfg!(feature = "stand-in") { "the stand-in" } else { "the port" };

/// What is asked: the library, or a stand-in that has a fault.
#[derive(Clone, Copy)]
pub enum Port {
    Library,
    Wrong(Fault),
}

impl Port {
    /// Asks about the slices between their guard words; the counts are those of `memory`.
    pub fn ask(self, lent: &mut Lent, memory: &Memory, lhs: u16, rhs: u16) -> u64 {
        match self {
            Port::Library => library(lent, memory, lhs, rhs),
            Port::Wrong(fault) => stand_in::ask(Some(fault), lent, memory, lhs, rhs),
        }
    }
}

#[cfg(feature = "stand-in")]
fn library(lent: &mut Lent, memory: &Memory, lhs: u16, rhs: u16) -> u64 {
    stand_in::ask(None, lent, memory, lhs, rhs)
}

#[cfg(not(feature = "stand-in"))]
fn library(lent: &mut Lent, memory: &Memory, lhs: u16, rhs: u16) -> u64 {
    // SAFETY: each pointer and length is a part of a buffer that is borrowed mutably for the call. The
    // counts and places may be anything.
    unsafe {
        sort_unify(
            lent.sorts.as_mut_ptr().add(GUARD),
            lent.sorts.len() - 2 * GUARD,
            memory.sort_count,
            memory.entry_count,
            lent.nodes.as_mut_ptr().add(GUARD),
            lent.nodes.len() - 2 * GUARD,
            memory.node_count,
            memory.node_entry_count,
            lent.bindings.as_mut_ptr().add(GUARD),
            lent.bindings.len() - 2 * GUARD,
            memory.variable_count,
            lhs,
            rhs,
        )
    }
}
