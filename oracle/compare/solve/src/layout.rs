//! Lays a list out in lent words. Words that it does not use hold junk, those of its own rows included.

use common::draft::put_row;
use common::junk::Junk;
use lists::given::Counted;
use lists::given::Given;
use lists::memory::*;
use lists::rng::Rng;

use crate::call::Call;
use crate::call::Slice;

/// How many words are lent beyond what a list needs.
#[derive(Clone, Copy, PartialEq)]
pub enum More {
    /// None.
    Exact,
    /// Mostly none, in some lists some of some slices.
    Any,
    /// Some of every slice.
    All,
}

/// The words of a slice that a list does not need; more of the large ones only now and then.
fn more(rng: &mut Rng, slice: Slice, more: More) -> usize {
    if more == More::Exact || (more == More::Any && rng.chance(60)) {
        return 0;
    }
    match slice {
        Slice::Sorts | Slice::Nodes | Slice::Scratch => match rng.chance(5) {
            true => rng.pick(&[808, 4_096, 8_192]),
            false => rng.pick(&[1, 2, 4, 5, 64]),
        },
        Slice::Index => rng.pick(&[1, 1, 2, 64, 2_048]),
        _ => rng.pick(&[1, 2, 3, 4, 5, 6, 30]),
    }
}

/// The list in words, with the counts and lengths that it says.
pub fn laid_out(rng: &mut Rng, junk: &Junk, list: &Given, beyond: More) -> Call {
    let mut call = Call::default();
    for (slice, _) in Slice::ALL {
        let needed = words_needed(list, slice);
        let length = match list.said_lend(slice) {
            Some(words) => words.into(),
            None => needed + more(rng, slice, beyond),
        };
        *call.words_mut(slice) = junk.words(rng, length);
    }
    call.told();
    let memory = &mut call.memory;
    for (counted, _) in Counted::ALL {
        *memory.count_mut(counted) = list.count(counted);
    }
    memory.default = list.default;
    put_storage(&mut memory.sorts, &list.sorts, MAX_SORTS, &list.entries);
    put_storage(&mut memory.nodes, &list.nodes, MAX_NODES, &list.node_entries);
    put_words(&mut memory.bindings, 0, &list.bindings);
    put_words(&mut memory.exprs, 0, &list.exprs);
    put_words(&mut memory.sources, 0, &list.sources);
    for (index, &[expression, kind, sort]) in list.names.iter().enumerate() {
        put_words(&mut memory.names, NAME * index, &[expression, kind]);
        if kind == target::OP {
            put_words(&mut memory.names, NAME * index + 2, &[sort]);
        }
    }
    for (index, &[kind, sort, place]) in list.overloads.iter().enumerate() {
        put_words(&mut memory.overloads, OVERLOAD * index, &[kind]);
        if kind == target::OP {
            put_words(&mut memory.overloads, OVERLOAD * index + 1, &[sort]);
        }
        put_words(&mut memory.overloads, OVERLOAD * index + 2, &[place]);
    }
    for (index, row) in list.constraints.iter().enumerate() {
        put_words(&mut memory.constraints, CONSTRAINT * index, &row[..used(row[0])]);
    }
    call
}

/// How many words of a constraint its kind uses.
pub fn used(kind: u16) -> usize {
    match kind {
        constraint::DISJUNCTION => 5,
        constraint::COMPREHENSION | constraint::JOIN => 4,
        _ => 3,
    }
}

fn words_needed(list: &Given, slice: Slice) -> usize {
    match slice {
        Slice::Sorts => SORT_STORAGE,
        Slice::Nodes => NODE_STORAGE,
        Slice::Bindings => list.bindings.len(),
        Slice::Exprs => list.exprs.len(),
        Slice::Names => NAME * list.names.len(),
        Slice::Constraints => CONSTRAINT * list.constraints.len(),
        Slice::Overloads => OVERLOAD * list.overloads.len(),
        Slice::Sources => list.sources.len(),
        Slice::Scratch => SCRATCH,
        Slice::Index => INDEX,
        Slice::OutTyping => 3 * list.exprs.len(),
        Slice::OutMeasure => components(list).min(2 * MAX_COMPONENTS),
        Slice::OutChoices => 2 * disjunctions(list),
    }
}

pub fn components(list: &Given) -> usize {
    let rows = list.constraints.iter();
    rows.map(|row| match row[0] {
        constraint::SUB | constraint::LIT => 1,
        constraint::JOIN => row[3].into(),
        _ => 0,
    })
    .sum()
}

fn disjunctions(list: &Given) -> usize {
    list.constraints.iter().filter(|row| row[0] == constraint::DISJUNCTION).count()
}

fn put_storage(words: &mut [u16], rows: &[Row], most_rows: usize, entries: &[u16]) {
    for (row, words) in rows.iter().take(most_rows).zip(words.chunks_exact_mut(ROW)) {
        put_row(words, *row);
    }
    put_words(words, ROW * most_rows, entries);
}

/// Puts words at a place; those past the end are left out.
fn put_words(words: &mut [u16], at: usize, new: &[u16]) {
    for (word, new) in words.iter_mut().skip(at).zip(new) {
        *word = *new;
    }
}
