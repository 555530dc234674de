//! Two large terms that differ at their leaves, so that one call makes up to 512 bindings.

use common::junk::Junk;
use lists::memory::*;

use crate::cases::Case;
use crate::terms::Terms;

pub fn case(mut terms: Terms, junk: &Junk) -> Case {
    let most = terms.rng().pick(&[100, 300, MAX_VARIABLES - 1, MAX_VARIABLES]);
    let count = if terms.rng().chance(50) { most } else { terms.rng().between(30, most) };
    let variables: Vec<u16> = (0..count).map(|_| terms.fresh()).collect();
    let leaves = leaves(&mut terms, &variables);
    let (left, right): (Vec<u16>, Vec<u16>) = leaves.into_iter().unzip();
    let (lhs, rhs) = (tree(&mut terms, &left), tree(&mut terms, &right));
    // One that fails last of all.
    let (other_lhs, other_rhs) = (terms.function(&[lhs], kind::BOOL), terms.function(&[rhs], kind::NAT));
    Case::new(terms.memory(junk), vec![(lhs, rhs), (rhs, lhs), (other_lhs, other_rhs), (other_rhs, other_lhs)])
}

/// What stands on both sides: all variables against sorts, each variable against the next one or the one
/// before, any against any, or some of all; in the last way conflicts come up before long.
fn leaves(terms: &mut Terms, variables: &[u16]) -> Vec<(u16, u16)> {
    let way = terms.rng().below(6);
    let last = variables.len() - 1;
    let mut leaves = Vec::new();
    for (index, &variable) in variables.iter().enumerate() {
        let leaf = match way {
            0 => (variable, terms.fixed()),
            1 => (variable, variables[last.min(index + 1)]),
            2 => (variable, variables[index.saturating_sub(1)]),
            3 => (terms.rng().pick(variables), terms.rng().pick(variables)),
            4 => (variable, some_leaf(terms, variables)),
            _ => (terms.rng().pick(variables), some_leaf(terms, variables)),
        };
        leaves.push(if terms.rng().chance(10) { (leaf.1, leaf.0) } else { leaf });
    }
    leaves
}

fn some_leaf(terms: &mut Terms, variables: &[u16]) -> u16 {
    match terms.rng().below(10) {
        0..=3 => terms.fixed(),
        4..=8 => terms.rng().pick(variables),
        _ => {
            let (kind, sort) = (terms.container_kind(), terms.fixed());
            terms.container(kind, sort)
        }
    }
}

/// Functions of up to 16 arguments over functions over the leaves.
fn tree(terms: &mut Terms, leaves: &[u16]) -> u16 {
    let mut places = leaves.to_vec();
    while places.len() > 1 {
        places = places.chunks(MAX_ARGUMENTS).map(|part| terms.function(part, kind::UNIT)).collect();
    }
    places[0]
}
