//! Chains of bindings: a variable bound to the node of the next one, and so on to an end.

use common::junk::Junk;
use lists::memory::*;

use crate::cases::Case;
use crate::terms::Terms;

/// One to six chains of up to 500 bindings in all, made in any order, and pairs of places in them.
pub fn case(mut terms: Terms, junk: &Junk) -> Case {
    let most = match terms.rng().below(20) {
        0 => terms.rng().between(100, 500),
        1..=3 => terms.rng().between(20, 100),
        _ => terms.rng().between(2, 20),
    };
    let count = terms.rng().between(1, 6);
    let ends: Vec<u16> = (0..count).map(|_| end(&mut terms)).collect();
    let mut chains = Vec::new();
    for _ in 0..count {
        let links = terms.rng().between(1, most.div_ceil(count));
        let end = terms.rng().pick(&ends);
        chains.push(chain(&mut terms, links, end));
    }
    let pairs = (0..10).map(|_| pair(&mut terms, &chains)).collect();
    Case::new(terms.memory(junk), pairs)
}

fn pair(terms: &mut Terms, chains: &[Vec<u16>]) -> (u16, u16) {
    let parts = terms.rng().pick(&[0, 0, 1, 2, 3, 4]);
    let other = if terms.rng().chance(90) { parts } else { 0 };
    (asked(terms, chains, parts), asked(terms, chains, other))
}

/// A free variable, a sort, or a term over a variable.
fn end(terms: &mut Terms) -> u16 {
    match terms.rng().below(8) {
        0 => terms.fixed(),
        1 => terms.variable(),
        2..=5 => terms.fresh(),
        _ => {
            let part = terms.variable();
            terms.some_container(kind::LIST, part)
        }
    }
}

/// The nodes of a chain, first to last, and its end. In some chains a link now and then is a container
/// over the next variable.
fn chain(terms: &mut Terms, links: usize, end: u16) -> Vec<u16> {
    let mut places: Vec<u16> = (0..links).map(|_| terms.fresh()).collect();
    let first = terms.variable_count() - links;
    places.push(end);
    let nested = terms.rng().pick(&[0, 0, 10]);
    let mut order: Vec<usize> = (0..links).collect();
    if terms.rng().chance(50) {
        order.reverse();
    }
    for link in order {
        let next = match terms.rng().chance(nested) {
            true => terms.container(kind::LIST, places[link + 1]),
            false => places[link + 1],
        };
        terms.bind((first + link) as u16, next);
    }
    places
}

/// A place in a chain, a container over one, or a function of several.
fn asked(terms: &mut Terms, chains: &[Vec<u16>], parts: usize) -> u16 {
    match parts {
        0 => some(terms, chains),
        1 => {
            let part = some(terms, chains);
            terms.container(kind::LIST, part)
        }
        _ => {
            let arguments: Vec<u16> = (1..parts).map(|_| some(terms, chains)).collect();
            let range = some(terms, chains);
            terms.function(&arguments, range)
        }
    }
}

/// The start of a chain, its end, or a place in it.
fn some(terms: &mut Terms, chains: &[Vec<u16>]) -> u16 {
    let chain = &chains[terms.rng().below(chains.len())];
    match terms.rng().below(4) {
        0 => chain[chain.len() - 1],
        1 => terms.rng().pick(chain),
        _ => chain[0],
    }
}
