//! The entries of the proved library. A slice passes as pointer and length.

use common::guard::between_guards;
use lists::memory::Memory;
use lists::question::Question;

use crate::call::Lent;

unsafe extern "C" {
    fn sort_partial_cmp(sorts: *const u16, words: usize, rows: usize, entries: usize, lhs: u16, rhs: u16) -> u64;
    fn sort_widening_distance(sorts: *const u16, words: usize, rows: usize, entries: usize, from: u16, to: u16) -> u64;
    fn sort_is_materializable(sorts: *const u16, words: usize, rows: usize, entries: usize, from: u16, to: u16) -> u64;
    fn sort_join(
        sorts: *mut u16,
        words: usize,
        rows: usize,
        entries: usize,
        index: *mut u16,
        index_words: usize,
        lhs: u16,
        rhs: u16,
    ) -> u64;
    fn sort_meet(
        sorts: *mut u16,
        words: usize,
        rows: usize,
        entries: usize,
        index: *mut u16,
        index_words: usize,
        lhs: u16,
        rhs: u16,
    ) -> u64;
}

/// Asks the library about the words between the guard words; the counts are those of `memory`.
pub fn ask(lent: &mut Lent, memory: &Memory, question: Question) -> u64 {
    let (sorts, index) = (between_guards(&mut lent.sorts), between_guards(&mut lent.index));
    let (rows, entries) = (memory.sort_count, memory.entry_count);
    match question {
        Question::PartialCmp(lhs, rhs) => partial_cmp(sorts, rows, entries, lhs, rhs),
        Question::Join(lhs, rhs) => join(sorts, rows, entries, index, lhs, rhs),
        Question::Meet(lhs, rhs) => meet(sorts, rows, entries, index, lhs, rhs),
        Question::WideningDistance(from, to) => {
            // SAFETY: the slice is borrowed for the call; the counts and numbers may be anything.
            unsafe { sort_widening_distance(sorts.as_ptr(), sorts.len(), rows, entries, from, to) }
        }
        Question::IsMaterializable(from, to) => {
            // SAFETY: as above.
            unsafe { sort_is_materializable(sorts.as_ptr(), sorts.len(), rows, entries, from, to) }
        }
        Question::Solve | Question::Unify(..) => panic!("{question:?} is not about sorts alone"),
    }
}

pub fn partial_cmp(sorts: &[u16], rows: usize, entries: usize, lhs: u16, rhs: u16) -> u64 {
    // SAFETY: the slice is borrowed for the call; the counts and numbers may be anything.
    unsafe { sort_partial_cmp(sorts.as_ptr(), sorts.len(), rows, entries, lhs, rhs) }
}

pub fn join(sorts: &mut [u16], rows: usize, entries: usize, index: &mut [u16], lhs: u16, rhs: u16) -> u64 {
    // SAFETY: the slices are borrowed mutably for the call; the counts and numbers may be anything.
    unsafe { sort_join(sorts.as_mut_ptr(), sorts.len(), rows, entries, index.as_mut_ptr(), index.len(), lhs, rhs) }
}

pub fn meet(sorts: &mut [u16], rows: usize, entries: usize, index: &mut [u16], lhs: u16, rhs: u16) -> u64 {
    // SAFETY: as for join.
    unsafe { sort_meet(sorts.as_mut_ptr(), sorts.len(), rows, entries, index.as_mut_ptr(), index.len(), lhs, rhs) }
}
