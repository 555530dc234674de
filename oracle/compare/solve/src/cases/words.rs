//! Lists with a few words, counts or lengths changed at random. Some are still accepted.

use common::junk;
use common::junk::Junk;
use lists::given::Counted;
use lists::given::Given;
use lists::memory::*;
use lists::rng::Rng;

use crate::call::Call;
use crate::call::Slice;
use crate::cases::Case;
use crate::layout::More;
use crate::layout::laid_out;

pub fn case(rng: &mut Rng, junk: &Junk, list: &Given) -> Case {
    let mut call = laid_out(rng, junk, list, More::Any);
    for _ in 0..rng.between(1, 3) {
        change(rng, &mut call);
    }
    Case::new(call)
}

fn change(rng: &mut Rng, call: &mut Call) {
    let value = value(rng, &call.memory);
    let (list, _) = rng.pick(&Counted::ALL);
    let (slice, at, row) = list.place();
    match rng.below(20) {
        0 => {
            let count = call.memory.count_mut(list);
            *count = near(rng, *count);
        }
        1 => {
            let end = at + row * call.memory.count(list);
            let length = rng.pick(&[end, call.length(slice)]);
            call.lend(slice, near(rng, length), value);
        }
        2 => {
            let (slice, _) = rng.pick(&Slice::ALL);
            let length = call.length(slice);
            call.lend(slice, near(rng, length), value);
        }
        3 => call.memory.default = value,
        _ => {
            let word = at + rng.below((row * call.memory.count(list)).max(1));
            if let Some(word) = call.words_mut(slice).get_mut(word) {
                *word = value;
            }
        }
    }
}

/// A word about where the checks decide.
fn value(rng: &mut Rng, memory: &Memory) -> u16 {
    let first_node = usize::from(FIRST_NODE);
    let (list, _) = rng.pick(&Counted::ALL);
    let value = match rng.below(9) {
        0 | 1 => rng.below(16),
        2 => near(rng, memory.count(list)),
        3 => near(rng, memory.sort_count),
        4 => first_node + near(rng, memory.node_count),
        5 => rng.below(memory.sort_count.max(1)),
        6 | 7 => first_node + rng.below(memory.node_count.max(1)),
        _ => junk::word(rng).into(),
    };
    value as u16
}

fn near(rng: &mut Rng, value: usize) -> usize {
    (value + rng.below(4)).saturating_sub(2)
}
