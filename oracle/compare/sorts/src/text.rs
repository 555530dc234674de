//! Lists, questions and packed answers as lines of numbers, which a small program can read.
//!
//! `L n e` begins a list of n sorts and e entries; n lines `r kind part start count` and lines
//! `a word...` of at most 16 entries follow. `c`, `d`, `m`, `j` or `k`, two sorts and the answer
//! are a question: partial_cmp, widening_distance, is_materializable, join, meet.

use lists::memory::*;
use lists::question::Question;

const ENTRIES_A_LINE: usize = 16;

/// The lines of a list whose counts are within the lent words.
pub fn list_text(memory: &Memory) -> String {
    let mut text = format!("L {} {}\n", memory.sort_count, memory.entry_count);
    for number in 0..memory.sort_count {
        text += &format!("r {}\n", words(&memory.sort(number).words()));
    }
    for entries in memory.sorts[ENTRIES_AT..][..memory.entry_count].chunks(ENTRIES_A_LINE) {
        text += &format!("a {}\n", words(entries));
    }
    text
}

pub fn question_text(question: Question, packed: u64) -> String {
    let (letter, lhs, rhs) = match question {
        Question::PartialCmp(lhs, rhs) => ('c', lhs, rhs),
        Question::WideningDistance(from, to) => ('d', from, to),
        Question::IsMaterializable(from, to) => ('m', from, to),
        Question::Join(lhs, rhs) => ('j', lhs, rhs),
        Question::Meet(lhs, rhs) => ('k', lhs, rhs),
        Question::Solve | Question::Unify(..) => panic!("{question:?} is not about sorts alone"),
    };
    format!("{letter} {lhs} {rhs} {packed}\n")
}

fn words(words: &[u16]) -> String {
    words.iter().map(u16::to_string).collect::<Vec<_>>().join(" ")
}
