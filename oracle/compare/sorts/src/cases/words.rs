//! Lists with a few words, counts or lengths changed at random. Some are still accepted.

use common::draft::Draft;
use common::junk;
use common::junk::Junk;
use lists::memory::*;
use lists::rng::Rng;

use crate::cases::Case;
use crate::cases::add_sorts;

pub fn changed(rng: &mut Rng, junk: &Junk) -> Case {
    let mut draft = Draft::new(rng);
    add_sorts(&mut draft);
    let mut pair = draft.pair(0);
    let mut memory = draft.memory(junk);
    for _ in 0..rng.between(1, 3) {
        change(rng, &mut memory, &mut pair);
    }
    Case::about(memory, &[pair])
}

fn change(rng: &mut Rng, memory: &mut Memory, pair: &mut (u16, u16)) {
    let value = value(rng, memory);
    match rng.below(20) {
        0..=9 => put(memory, rng.below(ROW * memory.sort_count.max(1)), value),
        10..=14 => put(memory, ENTRIES_AT + rng.below(memory.entry_count.max(1)), value),
        15 => memory.sort_count = near(rng, memory.sort_count),
        16 => memory.entry_count = near(rng, memory.entry_count),
        17 => {
            let length = rng.pick(&[ROW * memory.sort_count, ENTRIES_AT + memory.entry_count, SORT_STORAGE]);
            let length = near(rng, length);
            memory.sorts.resize(length, value);
        }
        18 => pair.0 = value,
        _ => pair.1 = value,
    }
}

/// A word about where the checks decide.
fn value(rng: &mut Rng, memory: &Memory) -> u16 {
    let value = match rng.below(6) {
        0 => rng.below(16),
        1 => near(rng, memory.sort_count),
        2 => near(rng, memory.entry_count),
        3 => near(rng, MAX_ARGUMENTS),
        4 => rng.below(memory.sort_count.max(1)),
        _ => junk::word(rng).into(),
    };
    value as u16
}

fn near(rng: &mut Rng, value: usize) -> usize {
    (value + rng.below(4)).saturating_sub(2)
}

/// Sets a word, if the lent slice still has it.
fn put(memory: &mut Memory, at: usize, value: u16) {
    if let Some(word) = memory.sorts.get_mut(at) {
        *word = value;
    }
}
