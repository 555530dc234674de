//! One small list with every way to bind its three variables, and every pair of its places.

use common::junk::Junk;
use lists::checks;
use lists::memory::*;
use lists::question::Question;

use crate::cases::Case;
use crate::terms::Terms;

/// Each variable is free or bound to one of 16 places.
const WAYS: u64 = 17;

/// A step that goes through all cases in another order, so that the first ones are of all kinds.
const STEP: u64 = 1_741;

pub fn case(mut terms: Terms, junk: &Junk, index: u64) -> Option<Case> {
    let all = WAYS.pow(3);
    let way = (index < all).then_some(index * STEP % all)?;
    let places = places(&mut terms);
    let memory = terms.memory(junk);
    let variables = [0, 1, 2].map(|variable| usize::from(memory.node(variable).part));
    let mut memory = memory;
    for (digit, variable) in variables.into_iter().enumerate() {
        let binding = way / WAYS.pow(digit as u32) % WAYS;
        memory.bindings[variable] = places.get(binding as usize).copied().unwrap_or(FREE);
    }
    let mut pairs: Vec<(u16, u16)> = places.iter().flat_map(|&lhs| places.iter().map(move |&rhs| (lhs, rhs))).collect();
    if checks::first_failing(&memory, Question::Unify(0, 0)).is_some() {
        pairs.truncate(1); // Cyclic: all are refused.
    }
    Some(Case::new(memory, pairs))
}

/// Four sorts and twelve nodes, the first three of which are those of the variables.
fn places(terms: &mut Terms) -> Vec<u16> {
    use kind::*;
    let [x, y, z] = [(); 3].map(|()| terms.fresh());
    let list = terms.sorts.plain(LIST, NAT);
    let function = terms.sorts.function(vec![NAT], BOOL);
    let nodes = [
        terms.container(LIST, x),
        terms.container(LIST, y),
        terms.container(SET, z),
        terms.container(LIST, NAT),
        terms.function(&[x], y),
        terms.function(&[y], z),
        terms.function(&[NAT], x),
        terms.function(&[x, y], x),
        terms.node_of(0),
    ];
    [&[NAT, BOOL, list, function, x, y, z], &nodes[..]].concat()
}

#[cfg(test)]
mod tests {
    use std::collections::HashSet;

    use crate::cases::*;

    #[test]
    fn every_way_comes_once() {
        let cases = Cases::new(Class::Small, 1);
        let bindings = |index| {
            cases.case(index).map(|case| {
                let variables = [0, 1, 2].map(|node| usize::from(case.memory.node(node).part));
                variables.map(|variable| case.memory.bindings[variable])
            })
        };
        let ways: HashSet<[u16; 3]> = (0..).map_while(bindings).collect();
        assert_eq!(ways.len(), 17 * 17 * 17);
    }
}
