//! Lists at the ceilings, or one below.

use common::junk;
use common::junk::Junk;
use lists::memory::*;
use lists::rng::Rng;

use crate::cases::Case;
use crate::cases::mixed::add_random;
use crate::terms::Terms;

/// How full the parts of a list are to be, none where it does not matter.
struct Full {
    sorts: Option<usize>,
    entries: Option<usize>,
    nodes: Option<usize>,
    node_entries: Option<usize>,
    variables: Option<usize>,
}

/// Rows that are left for the places asked about, where the padding comes first.
const LEFT: usize = 200;

/// Padding before the places asked about, or after them.
pub fn case(mut terms: Terms, junk: &Junk) -> Case {
    let full = Full {
        sorts: some(&mut terms, MAX_SORTS),
        entries: some(&mut terms, MAX_ENTRIES),
        nodes: some(&mut terms, MAX_NODES),
        node_entries: some(&mut terms, MAX_NODE_ENTRIES),
        variables: some(&mut terms, MAX_VARIABLES),
    };
    if terms.rng().chance(60) {
        full.pad(&mut terms, LEFT);
    }
    add_random(&mut terms);
    let mut pairs: Vec<(u16, u16)> = (0..8).map(|_| terms.pair()).collect();
    full.pad(&mut terms, 0);
    pairs.extend((0..2).map(|_| (terms.any(), terms.any())));
    if let (Some(_), Some(node)) = (full.nodes, terms.node_count().checked_sub(1)) {
        let last = Place::Node(node as u16).word();
        pairs.push((last, terms.any()));
    }
    Case::new(terms.memory(junk), pairs)
}

fn some(terms: &mut Terms, ceiling: usize) -> Option<usize> {
    terms.rng().chance(50).then(|| ceiling - terms.rng().below(2))
}

impl Full {
    /// Fills up, but for `left` rows and entries of each.
    fn pad(&self, terms: &mut Terms, left: usize) {
        let to = |count: Option<usize>| count.map_or(0, |count| count - left);
        let most_nodes = self.nodes.unwrap_or(MAX_NODES) - left;
        pad_node_entries(terms, to(self.node_entries), most_nodes);
        while terms.variable_count() < to(self.variables) {
            pad_variable(terms, most_nodes);
        }
        while terms.node_count() < to(self.nodes) {
            pad_node(terms);
        }
        pad_entries(terms, to(self.entries));
        pad_sorts(terms, to(self.sorts));
    }
}

/// A variable, with a node while there is room: free, or bound to a sort or to another variable.
fn pad_variable(terms: &mut Terms, most_nodes: usize) {
    let variable = terms.bare();
    if terms.node_count() >= most_nodes {
        return;
    }
    let bound = terms.rng().chance(40);
    if bound {
        let place = terms.any();
        terms.bind(variable, place);
    }
    terms.node_of(variable);
}

/// A container or a function over few places, so that its written-out size stays small.
fn pad_node(terms: &mut Terms) {
    let part = terms.fixed();
    let kind = terms.container_kind();
    match terms.rng().below(3) {
        0 if terms.variable_count() > 0 => terms.twin(),
        1 if terms.entries.len() + MAX_ARGUMENTS < MAX_NODE_ENTRIES / 2 => terms.function(&[part, kind::NAT], part),
        _ => terms.container(kind, part),
    };
}

fn pad_sorts(terms: &mut Terms, count: usize) {
    while terms.sorts.count() < count {
        let number = terms.sorts.count() as u16;
        match terms.rng().below(3) {
            0 => terms.sorts.plain(kind::DEF, number + 2_000),
            1 => terms.sorts.plain(kind::TYPE_VAR, number + 2_000),
            _ => terms.sorts.plain(kind::FSET, number - 1),
        };
    }
}

/// Half the time with a function whose run is at the end, or next to it.
fn pad_entries(terms: &mut Terms, count: usize) {
    let all = MAX_ARGUMENTS + 1;
    if terms.sorts.entries.len() + all <= count && terms.rng().chance(50) {
        stray_entries(terms.sorts.rng, &mut terms.sorts.entries, count - all);
        let arguments = [(); MAX_ARGUMENTS].map(|()| terms.fixed());
        terms.sorts.function(arguments.to_vec(), kind::UNIT);
    }
    stray_entries(terms.sorts.rng, &mut terms.sorts.entries, count);
}

/// Half the time with a function whose run is at the end.
fn pad_node_entries(terms: &mut Terms, count: usize, most_nodes: usize) {
    let arguments: Vec<u16> = (0..terms.rng().between(1, MAX_ARGUMENTS)).map(|_| terms.any()).collect();
    let room = terms.entries.len() + arguments.len() <= count && terms.node_count() < most_nodes;
    if room && terms.rng().chance(50) {
        stray_entries(terms.sorts.rng, &mut terms.entries, count - arguments.len());
        terms.last_function(&arguments, kind::BOOL);
    }
    stray_entries(terms.sorts.rng, &mut terms.entries, count);
}

/// Entries that no run has.
fn stray_entries(rng: &mut Rng, entries: &mut Vec<u16>, count: usize) {
    while entries.len() < count {
        entries.push(junk::word(rng));
    }
}

#[cfg(test)]
mod tests {
    use lists::memory::*;

    use crate::cases::*;

    #[test]
    fn every_ceiling_is_met_and_none_is_passed() {
        let cases = Cases::new(Class::Full, 1);
        let counts = |memory: &Memory| {
            [memory.sort_count, memory.entry_count, memory.node_count, memory.node_entry_count, memory.variable_count]
        };
        let ceilings = [MAX_SORTS, MAX_ENTRIES, MAX_NODES, MAX_NODE_ENTRIES, MAX_VARIABLES];
        let mut met = [[false; 2]; 5];
        for index in 0..300 {
            let case = cases.case(index).expect("a random class has no end");
            for (list, count) in counts(&case.memory).into_iter().enumerate() {
                assert!(count <= ceilings[list], "list {list} of case {index} has {count} rows");
                if count + 1 >= ceilings[list] {
                    met[list][ceilings[list] - count] = true;
                }
            }
        }
        assert_eq!(met, [[true; 2]; 5]);
    }
}
