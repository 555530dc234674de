//! Lists with a few words, counts, lengths or places changed at random. Some are still accepted.

use common::junk;
use common::junk::Junk;
use lists::memory::*;
use lists::rng::Rng;

use crate::cases::Case;
use crate::cases::mixed::add_random;
use crate::terms::Terms;

pub fn case(rng: &mut Rng, junk: &Junk) -> Case {
    let mut terms = Terms::new(rng);
    add_random(&mut terms);
    let mut pairs: Vec<(u16, u16)> = (0..3).map(|_| terms.pair()).collect();
    let mut memory = terms.memory(junk);
    for _ in 0..rng.between(1, 3) {
        change(rng, &mut memory, &mut pairs);
    }
    Case::new(memory, pairs)
}

fn change(rng: &mut Rng, memory: &mut Memory, pairs: &mut [(u16, u16)]) {
    let value = value(rng, memory);
    match rng.below(40) {
        0..=4 => put(&mut memory.sorts, rng.below(ROW * memory.sort_count.max(1)), value),
        5..=7 => put(&mut memory.sorts, ENTRIES_AT + rng.below(memory.entry_count.max(1)), value),
        8..=18 => put(&mut memory.nodes, rng.below(ROW * memory.node_count.max(1)), value),
        19..=22 => put(&mut memory.nodes, NODE_ENTRIES_AT + rng.below(memory.node_entry_count.max(1)), value),
        23..=28 => put(&mut memory.bindings, rng.below(memory.variable_count.max(1)), value),
        29 => memory.sort_count = near(rng, memory.sort_count),
        30 => memory.entry_count = near(rng, memory.entry_count),
        31 => memory.node_count = near(rng, memory.node_count),
        32 => memory.node_entry_count = near(rng, memory.node_entry_count),
        33 => memory.variable_count = near(rng, memory.variable_count),
        34 => {
            let length = rng.pick(&[ROW * memory.sort_count, ENTRIES_AT + memory.entry_count, SORT_STORAGE]);
            memory.sorts.resize(near(rng, length), value);
        }
        35 => {
            let length = rng.pick(&[ROW * memory.node_count, NODE_ENTRIES_AT + memory.node_entry_count, NODE_STORAGE]);
            memory.nodes.resize(near(rng, length), value);
        }
        36 => memory.bindings.resize(near(rng, memory.variable_count), value),
        37..=38 => pairs[0].0 = value,
        _ => pairs[0].1 = value,
    }
}

/// A word about where the checks decide.
fn value(rng: &mut Rng, memory: &Memory) -> u16 {
    let first_node = usize::from(FIRST_NODE);
    let value = match rng.below(9) {
        0 => rng.below(16),
        1 => near(rng, memory.sort_count),
        2 => near(rng, memory.variable_count),
        3 => first_node + near(rng, memory.node_count),
        4 => near(rng, memory.node_entry_count),
        5 => rng.below(memory.sort_count.max(1)),
        6 | 7 => first_node + rng.below(memory.node_count.max(1)),
        _ => junk::word(rng).into(),
    };
    value as u16
}

fn near(rng: &mut Rng, value: usize) -> usize {
    (value + rng.below(4)).saturating_sub(2)
}

/// Sets a word, if the lent slice still has it.
fn put(words: &mut [u16], at: usize, value: u16) {
    if let Some(word) = words.get_mut(at) {
        *word = value;
    }
}
