//! Random lists, and functions of few variables.

use common::junk::Junk;
use lists::memory::*;

use crate::cases::Case;
use crate::terms::Terms;

/// No sort of a random list is larger when written out.
const LARGEST_SORT: usize = 15;

pub fn mixed(mut terms: Terms, junk: &Junk) -> Case {
    add_random(&mut terms);
    let pairs = (0..8).map(|_| terms.pair()).collect();
    Case::new(terms.memory(junk), pairs)
}

/// Sorts, variables, nodes and bindings; in some lists a variable has two nodes, or none.
pub fn add_random(terms: &mut Terms) {
    for _ in 0..terms.rng().below(6) {
        terms.sorts.add(LARGEST_SORT);
    }
    for _ in 0..terms.rng().between(1, 7) {
        terms.fresh();
    }
    for _ in 0..terms.rng().between(1, 8) {
        terms.add();
    }
    for _ in 0..terms.rng().pick(&[0, 0, 1, 3]) {
        terms.twin();
        terms.add();
    }
    if terms.rng().chance(10) {
        terms.bare();
    }
    for _ in 0..terms.rng().below(4) {
        terms.add_binding();
    }
}

/// Small functions over the same few variables.
pub fn tangled(mut terms: Terms, junk: &Junk) -> Case {
    let count = terms.rng().between(1, 5);
    let pairs = equations(&mut terms, |_| count, 12);
    Case::new(terms.memory(junk), pairs)
}

/// Functions with none to 16 arguments, often as many as there may be.
pub fn wide(mut terms: Terms, junk: &Junk) -> Case {
    let any = [(); 2].map(|()| terms.rng().between(0, MAX_ARGUMENTS));
    let [count, other] =
        any.map(|any| terms.rng().pick(&[0, any, any, MAX_ARGUMENTS - 1, MAX_ARGUMENTS, MAX_ARGUMENTS]));
    let pairs = equations(&mut terms, |terms| if terms.rng().chance(95) { count } else { other }, 40);
    Case::new(terms.memory(junk), pairs)
}

/// Functions whose parts are variables and terms over them, and pairs of these functions. Few kinds of
/// parts in a list, so that a conflict comes late or not at all.
fn equations(terms: &mut Terms, count: impl Fn(&mut Terms) -> usize, most: usize) -> Vec<(u16, u16)> {
    let variables = terms.rng().between(2, most);
    let places: Vec<u16> = (0..variables).map(|_| terms.fresh()).collect();
    let container = terms.container_kind();
    let number = terms.rng().between(kind::POS.into(), kind::REAL.into()) as u16;
    let (ground, nested) = (terms.rng().pick(&[0, 2, 10]), terms.rng().pick(&[5, 20, 40]));
    let mut parts = Vec::new();
    for _ in 0..3 * variables {
        let part = match terms.rng().below(100) {
            roll if roll < ground => number,
            roll if roll < ground + nested => {
                let inner = terms.rng().pick(&places);
                nested_part(terms, container, inner, &places)
            }
            _ => terms.rng().pick(&places),
        };
        parts.push(part);
    }
    for _ in 0..terms.rng().pick(&[0, 0, 1, 3]) {
        terms.add_binding();
    }
    if terms.rng().chance(10) {
        let twin = terms.twin();
        parts.push(twin);
    }
    let functions: Vec<u16> = (0..6)
        .map(|_| {
            let arguments: Vec<u16> = (0..count(terms)).map(|_| terms.rng().pick(&parts)).collect();
            let range = terms.rng().pick(&parts);
            terms.function(&arguments, range)
        })
        .collect();
    (0..8)
        .map(|_| (terms.rng().pick(&functions), terms.rng().pick(&functions)))
        .filter(|(lhs, rhs)| lhs != rhs)
        .collect()
}

fn nested_part(terms: &mut Terms, container: u16, inner: u16, places: &[u16]) -> u16 {
    if terms.rng().chance(80) {
        return terms.container(container, inner);
    }
    let range = terms.rng().pick(places);
    terms.function(&[inner], range)
}
