//! Two places that are built side by side, or one over the other, one step of nesting at a time.

use common::junk::Junk;
use lists::memory::*;

use crate::cases::Case;
use crate::terms::Terms;

/// Nesting up to 900 deep, mostly less. The left one may be a sort; the right one is of nodes, some of
/// them behind bindings. At the bottom are two places that unify or not; pairs are asked at the same
/// depth and at different ones.
pub fn case(mut terms: Terms, junk: &Junk) -> Case {
    if terms.rng().chance(2) {
        return tall(terms, junk);
    }
    let depth = match terms.rng().below(100) {
        0..=79 => terms.rng().between(3, 30),
        80..=96 => terms.rng().between(30, 150),
        _ => terms.rng().between(150, 900),
    };
    let left_is_sort = terms.rng().chance(40);
    let uniform = terms.rng().chance(40);
    let hidden = terms.rng().pick(&[0, 5, 30]);
    let mut levels = vec![bottom(&mut terms, left_is_sort)];
    for _ in 0..depth {
        let level = levels[levels.len() - 1];
        if !has_room(&terms) {
            break;
        }
        levels.push(wrapped(&mut terms, level, uniform, left_is_sort, hidden));
    }
    let pairs = pairs(&mut terms, &levels, uniform);
    Case::new(terms.memory(junk), pairs)
}

/// One nesting of nearly all nodes that a list may have. Both sides are in it, so it is gone through
/// almost whole: two neighbours, two ends, or any two.
fn tall(mut terms: Terms, junk: &Junk) -> Case {
    let variable = terms.fresh();
    let hidden = terms.rng().pick(&[0, 0, 10]);
    let mut levels = vec![terms.rng().pick(&[variable, kind::NAT])];
    while terms.node_count() + 5 < MAX_NODES {
        let mut place = levels[levels.len() - 1];
        if terms.rng().chance(hidden) {
            place = terms.behind(place);
        }
        levels.push(match terms.rng().chance(90) {
            true => terms.container(kind::LIST, place),
            false => terms.function(&[], place),
        });
    }
    let top = levels.len() - 1;
    let mut pairs = vec![(levels[top], levels[top - 1]), (variable, levels[top]), (levels[top], variable)];
    pairs.extend((0..3).map(|_| (terms.rng().pick(&levels), terms.rng().pick(&levels))));
    Case::new(terms.memory(junk), pairs)
}

/// Whether one more step of nesting leaves the list below its ceilings.
fn has_room(terms: &Terms) -> bool {
    terms.sorts.entries.len().max(terms.entries.len()) + 2 * MAX_ARGUMENTS <= MAX_ENTRIES
        && terms.node_count() + 2 * MAX_ARGUMENTS <= MAX_NODES
}

/// A sort or variable on the left; on the right the same, another, a variable, or what has it inside.
fn bottom(terms: &mut Terms, left_is_sort: bool) -> (u16, u16) {
    let variable = terms.fresh();
    let left = if left_is_sort { terms.fixed() } else { terms.rng().pick(&[variable, kind::NAT]) };
    let right = match terms.rng().below(8) {
        0 => variable,
        1..=3 => terms.fresh(),
        4 => terms.container(kind::LIST, variable),
        5 => terms.fixed(),
        6 => terms.behind(left),
        _ => left,
    };
    (left, right)
}

fn wrapped(
    terms: &mut Terms,
    (left, right): (u16, u16),
    uniform: bool,
    left_is_sort: bool,
    hidden: usize,
) -> (u16, u16) {
    let right = if terms.rng().chance(hidden) { terms.behind(right) } else { right };
    if uniform || terms.rng().chance(60) {
        let container = if uniform { kind::LIST } else { terms.container_kind() };
        let left = if left_is_sort { terms.sorts.plain(container, left) } else { terms.container(container, left) };
        return (left, terms.container(container, right));
    }
    let count = terms.rng().pick(&[0, 1, 1, 2, 3]);
    let place = terms.rng().between(0, count);
    let mut parts: Vec<(u16, u16)> = (0..=count).map(|_| flat(terms, left_is_sort)).collect();
    parts[place] = (left, right);
    let (left_range, right_range) = parts.pop().expect("a function has a range");
    let (left, right): (Vec<u16>, Vec<u16>) = parts.into_iter().unzip();
    let left = match left_is_sort {
        true => terms.sorts.function(left, left_range),
        false => terms.function(&left, left_range),
    };
    (left, terms.function(&right, right_range))
}

/// Parts beside the nesting: a fixed sort on both sides or a variable on one or both, mostly a new one.
fn flat(terms: &mut Terms, left_is_sort: bool) -> (u16, u16) {
    let sort = terms.fixed();
    let right = if terms.rng().chance(40) { some_variable(terms) } else { sort };
    let left = if !left_is_sort && terms.rng().chance(30) { some_variable(terms) } else { sort };
    (left, right)
}

fn some_variable(terms: &mut Terms) -> u16 {
    match terms.variable_count() < MAX_VARIABLES / 2 && terms.rng().chance(97) {
        true => terms.fresh(),
        false => terms.variable(),
    }
}

/// The two ends of the nesting in both orders, and others: of containers alone at different depths too.
fn pairs(terms: &mut Terms, levels: &[(u16, u16)], uniform: bool) -> Vec<(u16, u16)> {
    let top = levels.len() - 1;
    let mut pairs = vec![levels[top], (levels[top].1, levels[top].0)];
    for _ in 0..4 {
        let one = terms.rng().between(0, top);
        let other = if uniform || terms.rng().chance(20) { terms.rng().between(0, top) } else { one };
        pairs.push(match terms.rng().below(4) {
            0 => (levels[one].1, levels[other].1),
            1 => (levels[one].1, levels[other].0),
            _ => (levels[one].0, levels[other].1),
        });
    }
    pairs
}
