//! How many lists had which answer.

use std::collections::BTreeMap;
use std::fmt;

use lists::index::Walks;
use lists::memory::FREE;
use lists::memory::INDEX;
use lists::memory::MAX_SORTS;
use lists::memory::Memory;
use lists::memory::OVERLOAD;
use lists::verdict::Event;
use lists::verdict::Tally;
use lists::verdict::Verdict;

use crate::expected::Expected;
use crate::expected::Outcome;

#[derive(Default)]
pub struct Counts {
    pub lists: u64,
    /// Calls after one that ended with 15, over the same memory.
    pub after_15: u64,
    calls: u64,
    codes: BTreeMap<u16, u64>,
    /// Lists that are lent overload words beyond whole rows, which no record has.
    with_words_left_over: u64,
    with_bindings: u64,
    with_dropped: u64,
    with_sorts: u64,
    with_nodes: u64,
    with_node_room_again: u64,
    /// Typings whose disjunctions do not come in the order of their expressions.
    with_choices_moved: u64,
    most_components: usize,
    most_choices: usize,
    /// Searches that came to their end: how far sorts of the index stand from their places, and how many have 1,024 sorts.
    longest_walk: usize,
    with_walk_round: u64,
    with_full_sorts: u64,
    with_longer_index: u64,
}

impl Counts {
    pub fn add(&mut self, memory: &Memory, expected: &Expected) {
        self.calls += 1;
        *self.codes.entry(expected.code()).or_default() += 1;
        self.with_words_left_over += u64::from(memory.overloads.len() % OVERLOAD != 0);
        if matches!(expected.outcome, Outcome::Refused(_)) {
            return;
        }
        let bound = memory.bindings[..memory.variable_count].iter().any(|&place| place != FREE);
        self.with_bindings += u64::from(bound);
        let Tally { choices, nodes_made, nodes_peak, dropped, events, .. } = &expected.tally;
        self.with_dropped += u64::from(*dropped > 0);
        self.with_sorts += u64::from(events.iter().any(|event| matches!(event, Event::Sort { .. })));
        self.with_nodes += u64::from(*nodes_made > 0);
        self.with_node_room_again += u64::from(nodes_made > nodes_peak);
        self.with_longer_index += u64::from(memory.index > INDEX);
        if let Outcome::Searched { new, .. } = &expected.outcome {
            let given = (0..memory.sort_count).map(|number| memory.shape(number));
            let walks = Walks::of(given.chain(new.iter().cloned()));
            self.longest_walk = self.longest_walk.max(walks.longest);
            self.with_walk_round += u64::from(walks.round);
            self.with_full_sorts += u64::from(memory.sort_count + new.len() == MAX_SORTS);
        }
        if let Outcome::Searched { verdict: Verdict::Typing { measure, .. }, .. } = &expected.outcome {
            self.with_choices_moved += u64::from(!choices.is_sorted());
            self.most_components = self.most_components.max(measure.len());
            self.most_choices = self.most_choices.max(choices.len());
        }
    }
}

impl fmt::Display for Counts {
    fn fmt(&self, f: &mut fmt::Formatter<'_>) -> fmt::Result {
        let codes: Vec<String> = self.codes.iter().map(|(code, count)| format!("{code}: {count}")).collect();
        writeln!(f, "  calls: {}, answers: {}", self.calls, codes.join(", "))?;
        writeln!(
            f,
            "  with given bindings: {}, dropped prefixes: {}, sorts made: {}, nodes made: {}, node room used again: {}",
            self.with_bindings, self.with_dropped, self.with_sorts, self.with_nodes, self.with_node_room_again
        )?;
        writeln!(
            f,
            "  typings with disjunctions out of expression order: {}; at most {} components, {} choices; overload words left over: {}",
            self.with_choices_moved, self.most_components, self.most_choices, self.with_words_left_over
        )?;
        write!(
            f,
            "  index: longer than 2,048 words: {}, longest walk: {}, with a walk round the end: {}, 1,024 sorts: {}; calls after a 15 in the same memory: {}",
            self.with_longer_index, self.longest_walk, self.with_walk_round, self.with_full_sorts, self.after_15
        )
    }
}
