//! The call into the proved library: the one place with unsafe code.

use crate::Overload;

// The counts of a call are numbers of 64 bits there.
const _: () = assert!(size_of::<usize>() == 8);

/// What a name resolved to, in the library's layout.
#[repr(C)]
#[derive(Clone, Copy, Debug, Eq, PartialEq)]
pub(crate) struct TargetRecord {
    pub(crate) kind: u16,
    pub(crate) sort: u16,
}

/// One overload, in the library's layout: three words of 16 bits.
#[repr(C)]
#[derive(Clone, Copy, Debug, Eq, PartialEq)]
pub(crate) struct OverloadRecord {
    pub(crate) target: TargetRecord,
    pub(crate) sort: u16,
}

const _: () = assert!(size_of::<OverloadRecord>() == 6 && align_of::<OverloadRecord>() == 2);

impl OverloadRecord {
    pub(crate) fn of(overload: &Overload) -> OverloadRecord {
        let [kind, sort] = overload.target.words();
        OverloadRecord { target: TargetRecord { kind, sort }, sort: overload.sort.word() }
    }
}

/// What a call is lent: slices, and how many rows the lists have.
pub(crate) struct Lent<'a> {
    pub(crate) sorts: &'a mut [u16],
    pub(crate) sort_count: usize,
    pub(crate) entry_count: usize,
    pub(crate) nodes: &'a mut [u16],
    pub(crate) node_count: usize,
    pub(crate) node_entry_count: usize,
    pub(crate) binds: &'a mut [u16],
    pub(crate) var_count: usize,
    pub(crate) exprs: &'a [u16],
    pub(crate) expr_count: usize,
    pub(crate) names: &'a [u16],
    pub(crate) name_count: usize,
    pub(crate) constraints: &'a [u16],
    pub(crate) constraint_count: usize,
    pub(crate) overloads: &'a [OverloadRecord],
    pub(crate) overload_count: usize,
    pub(crate) sources: &'a [u16],
    pub(crate) source_count: usize,
    pub(crate) default: u16,
    pub(crate) scratch: &'a mut [u16],
    pub(crate) index: &'a mut [u16],
    pub(crate) typing: &'a mut [u16],
    pub(crate) measure: &'a mut [u16],
    pub(crate) choices: &'a mut [u16],
}

unsafe extern "C" {
    fn sort_solve_records(
        sorts: *mut u16,
        sorts_len: usize,
        sort_count: usize,
        entry_count: usize,
        nodes: *mut u16,
        nodes_len: usize,
        node_count: usize,
        node_entry_count: usize,
        binds: *mut u16,
        binds_len: usize,
        var_count: usize,
        exprs: *const u16,
        exprs_len: usize,
        expr_count: usize,
        names: *const u16,
        names_len: usize,
        name_count: usize,
        constraints: *const u16,
        constraints_len: usize,
        constraint_count: usize,
        overloads: *const OverloadRecord,
        overloads_len: usize,
        overload_count: usize,
        sources: *const u16,
        sources_len: usize,
        source_count: usize,
        default: u16,
        scratch: *mut u16,
        scratch_len: usize,
        index: *mut u16,
        index_len: usize,
        typing: *mut u16,
        typing_len: usize,
        measure: *mut u16,
        measure_len: usize,
        choices: *mut u16,
        choices_len: usize,
    ) -> u64;
}

/// Asks the library. Words, counts and lengths may be anything: the entry asks for nothing, and its contract says what
/// it answers and leaves for all of them.
pub(crate) fn solve(lent: Lent<'_>) -> u64 {
    // SAFETY: each pointer and length is a slice that is borrowed for the call, mutably where the library writes, so
    // that no two of them overlap. The library looks at no word outside of them and keeps none of them.
    unsafe {
        sort_solve_records(
            lent.sorts.as_mut_ptr(),
            lent.sorts.len(),
            lent.sort_count,
            lent.entry_count,
            lent.nodes.as_mut_ptr(),
            lent.nodes.len(),
            lent.node_count,
            lent.node_entry_count,
            lent.binds.as_mut_ptr(),
            lent.binds.len(),
            lent.var_count,
            lent.exprs.as_ptr(),
            lent.exprs.len(),
            lent.expr_count,
            lent.names.as_ptr(),
            lent.names.len(),
            lent.name_count,
            lent.constraints.as_ptr(),
            lent.constraints.len(),
            lent.constraint_count,
            lent.overloads.as_ptr(),
            lent.overloads.len(),
            lent.overload_count,
            lent.sources.as_ptr(),
            lent.sources.len(),
            lent.source_count,
            lent.default,
            lent.scratch.as_mut_ptr(),
            lent.scratch.len(),
            lent.index.as_mut_ptr(),
            lent.index.len(),
            lent.typing.as_mut_ptr(),
            lent.typing.len(),
            lent.measure.as_mut_ptr(),
            lent.measure.len(),
            lent.choices.as_mut_ptr(),
            lent.choices.len(),
        )
    }
}

#[cfg(test)]
mod tests;
