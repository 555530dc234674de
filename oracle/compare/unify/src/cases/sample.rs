//! The cases of the recorded sample, which a program that has no generator reads.

use lists::memory::*;

use crate::cases::Case;
use crate::cases::Cases;
use crate::cases::Class;
use crate::cases::by_hand;

/// No list of the sample has more sorts, entries, nodes, node entries, variables.
const MOST: [usize; 5] = [16, 40, 40, 120, 30];

/// How many lists of each class the sample has.
const LISTS: [(Class, usize); 8] = [
    (Class::Small, 6),
    (Class::Mixed, 60),
    (Class::Tangled, 40),
    (Class::Wide, 20),
    (Class::Chains, 25),
    (Class::Deep, 20),
    (Class::Damaged, 60),
    (Class::Words, 40),
];

/// The lists written by hand, then lists of the random classes. Of the small ones, those that are
/// refused have a single question and are left out.
pub fn sample(seed: u64) -> Vec<Case> {
    let mut cases: Vec<Case> = by_hand().into_iter().map(|written| written.case).filter(fits).collect();
    for (class, count) in LISTS {
        let all = Cases::new(class, seed);
        let fitting = (0..).map_while(|index| all.case(index)).filter(fits);
        cases.extend(fitting.filter(|case| class != Class::Small || case.pairs.len() > 1).take(count));
    }
    cases
}

/// Whether the lines of the sample can say the list: its counts are those of its rows, and the
/// program that reads it lends full storage.
fn fits(case: &Case) -> bool {
    let memory = &case.memory;
    let counts =
        [memory.sort_count, memory.entry_count, memory.node_count, memory.node_entry_count, memory.variable_count];
    counts.iter().zip(MOST).all(|(&count, most)| count <= most)
        && memory.sorts.len() >= SORT_STORAGE
        && memory.nodes.len() >= NODE_STORAGE
        && memory.bindings.len() >= memory.variable_count
}
