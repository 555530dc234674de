//! Lists with one or two faults: each check alone, then each pair of checks, in turn. The fault of the earlier check
//! must be named.

use common::junk::Junk;
use lists::checks;
use lists::generate::plant;
use lists::given::Counted;
use lists::given::Given;
use lists::memory::*;
use lists::question::Question;
use lists::rng::Rng;

use crate::call::Call;
use crate::call::Slice;
use crate::cases::Case;
use crate::fault::CODES;
use crate::layout::More;
use crate::layout::laid_out;

pub fn case(rng: &mut Rng, junk: &Junk, mut list: Given, index: u64) -> Case {
    let faults = faults(index);
    for &code in faults.iter().filter(|code| (2..=12).contains(*code)) {
        plant(rng, &mut list, code);
        named(&list.memory(), code);
    }
    let mut call = laid_out(rng, junk, &list, More::Any);
    if faults.contains(&14) {
        too_short(rng, &mut call);
        assert!(!checks::passes(&call.memory, Question::Solve, 14), "14 was planted");
    }
    if faults.contains(&1) {
        too_long(rng, &mut call, (index / WAYS) as usize);
    }
    let planted = faults.last().copied();
    named(&call.memory, planted.expect("there is a fault"));
    Case { planted, ..Case::new(call) }
}

fn named(memory: &Memory, code: u16) {
    let found = checks::first_failing(memory, Question::Solve);
    assert_eq!(found, Some(code), "the model does not name the planted fault");
}

/// How many checks and pairs of checks there are.
const WAYS: u64 = (CODES.len() * (CODES.len() + 1) / 2) as u64;

/// The later check first, so that each fault is seen when it is planted.
fn faults(index: u64) -> Vec<u16> {
    let single = CODES.iter().map(|&code| vec![code]);
    let pairs = (0..CODES.len()).flat_map(|late| (0..late).map(move |early| vec![CODES[late], CODES[early]]));
    single.chain(pairs).nth((index % WAYS) as usize).expect("there are so many")
}

/// Each list in turn has a count above its ceiling or above what is lent, or a slice that ends inside its last row.
fn too_long(rng: &mut Rng, call: &mut Call, turn: usize) {
    let (list, _) = Counted::ALL[turn % Counted::ALL.len()];
    let rows = call.memory.count(list);
    let (slice, at, row) = list.place();
    match turn / Counted::ALL.len() % 3 {
        0 => *call.memory.count_mut(list) = 65_536 + rows,
        1 if rows > 0 => {
            let end = at + row * rows;
            let length = if rng.chance(80) { end - rng.between(1, row) } else { rng.below(end) };
            call.lend(slice, length.min(call.length(slice)), 0);
        }
        _ => *call.memory.count_mut(list) = above(rng, list, rows, call.length(slice)),
    }
    if checks::passes(&call.memory, Question::Solve, 1) {
        *call.memory.count_mut(list) = usize::MAX;
    }
}

/// Counts up to those whose size in words does not fit a number, and such as are small in 32 bits or when multiplied.
fn above(rng: &mut Rng, list: Counted, rows: usize, length: usize) -> usize {
    let ceiling = list.ceiling().unwrap_or(length);
    let counts = [
        ceiling + 1,
        ceiling + 2,
        65_535,
        (1 << 32) + rows,
        usize::MAX / 5 + 1,
        usize::MAX / 4 + 1,
        usize::MAX / 3 + 1,
        usize::MAX,
    ];
    rng.pick(&counts).max(ceiling + 1)
}

/// Storage, scratch, index or an output shorter than it has to be, though long enough for what is given.
fn too_short(rng: &mut Rng, call: &mut Call) {
    let memory = &call.memory;
    let storage = |rows: usize, entries_at: usize, entries: usize| match entries {
        0 => ROW * rows,
        _ => entries_at + entries,
    };
    let slices = [
        (Slice::Sorts, SORT_STORAGE, storage(memory.sort_count, ENTRIES_AT, memory.entry_count)),
        (Slice::Nodes, NODE_STORAGE, storage(memory.node_count, NODE_ENTRIES_AT, memory.node_entry_count)),
        (Slice::Scratch, SCRATCH, 0),
        (Slice::Index, INDEX, 0),
        (Slice::OutTyping, 3 * memory.expr_count, 0),
        (Slice::OutMeasure, components(memory), 0),
        (Slice::OutChoices, 2 * memory.disjunctions(), 0),
    ];
    let needed: Vec<(Slice, usize, usize)> = slices.into_iter().filter(|&(_, full, least)| full > least).collect();
    let (slice, full, least) = rng.pick(&needed);
    let length = match rng.below(4) {
        0 => least,
        1 => rng.between(least, full - 1),
        _ => full - 1,
    };
    call.lend(slice, length, 0);
}

/// Components of rows that may be damaged.
fn components(memory: &Memory) -> usize {
    memory.components().min(MAX_COMPONENTS)
}

#[cfg(test)]
mod tests {
    use std::collections::HashSet;

    use super::*;

    #[test]
    fn every_check_and_every_pair_comes() {
        let all: HashSet<Vec<u16>> = (0..WAYS).map(faults).collect();
        assert_eq!(all.len(), 13 + 78);
        assert!(all.iter().all(|faults| faults.len() == 1 || faults[0] > faults[1]));
        assert!(CODES.windows(2).all(|codes| all.contains(&vec![codes[1], codes[0]])));
    }
}
