//! Deep nesting: sorts made by a leaf, nodes made by widenings of functions, unify and joins to any depth, with and
//! without room.

use lists::given::Given;
use lists::memory::*;
use lists::rng::Rng;

use crate::cases::ground::Ground;

pub fn deep(rng: &mut Rng) -> Given {
    let depth = match rng.below(10) {
        0..=6 => rng.between(5, 60),
        7 => rng.between(100, 500),
        8 => rng.between(500, 1_017),
        _ => rng.pick(&[682, 683, 1_016, 1_017, 1_018, 1_500]),
    };
    let mut ground = Ground::new(rng);
    match ground.rng.below(5) {
        0 => made_at_a_leaf(&mut ground, depth),
        1 => widened(&mut ground, depth.min(1_000)),
        2 => widened_nodes(&mut ground, depth),
        3 => unified(&mut ground, depth.min(1_000)),
        _ => joined(&mut ground, depth.min(500)),
    }
    ground.finish()
}

/// Nodes over a part, `depth` deep.
fn nested(ground: &mut Ground, mut place: u16, depth: usize) -> u16 {
    let functions = ground.rng.chance(40);
    for _ in 0..depth {
        place = match functions {
            true => ground.function(&[kind::BOOL], place),
            false => ground.container(kind::LIST, place),
        };
    }
    place
}

/// Sorts over a part, `depth` deep.
fn nested_sort(ground: &mut Ground, mut sort: u16, depth: usize, functions: bool) -> u16 {
    for _ in 0..depth {
        // No two are equal, so that they need not be looked for.
        let (start, count) = (ground.list.entries.len() as u16, u16::from(functions));
        if functions {
            ground.list.entries.push(kind::BOOL);
        }
        let kind = if functions { kind::FUNCTION } else { kind::FSET };
        ground.list.sorts.push(Row { kind, part: sort, start: if functions { start } else { 0 }, count });
        sort = ground.list.sorts.len() as u16 - 1;
    }
    sort
}

fn made_at_a_leaf(ground: &mut Ground, depth: usize) {
    let variable = ground.variable();
    let place = nested(ground, variable, depth);
    ground.expression(place);
    if ground.rng.chance(50) {
        let overloads = [ground.number(), ground.number()];
        ground.disjunction(variable, &overloads);
        ground.sub(variable, kind::REAL);
    }
}

/// A function sort whose wider functions are made, inner ones first.
fn widened(ground: &mut Ground, depth: usize) {
    let number = ground.number();
    let sort = nested_sort(ground, number, depth, true);
    let free = ground.variable();
    if ground.rng.chance(50) {
        let overloads = [kind::BOOL, kind::NAT];
        ground.disjunction(free, &overloads);
    }
    ground.sub(sort, free);
    if ground.rng.chance(50) {
        ground.literal(free);
    }
}

/// The same over nodes; where the final range is free, there is no list.
fn widened_nodes(ground: &mut Ground, depth: usize) {
    let range = if ground.rng.chance(70) { ground.common_sort() } else { ground.variable() };
    let mut place = range;
    for _ in 0..depth {
        place = ground.function(&[kind::BOOL], place);
    }
    let other = if ground.rng.chance(50) { kind::NAT } else { ground.variable() };
    match ground.rng.chance(50) {
        true => ground.sub(place, other),
        false => ground.sub(other, place),
    }
    if other != kind::NAT {
        ground.literal(other);
    }
}

fn unified(ground: &mut Ground, depth: usize) {
    let functions = ground.rng.chance(50);
    let number = ground.number();
    let sort = nested_sort(ground, number, depth, functions);
    let variable = ground.variable();
    let mut place = variable;
    for _ in 0..depth {
        place = match functions {
            true => ground.function(&[kind::BOOL], place),
            false => ground.container(kind::FSET, place),
        };
    }
    ground.expression(variable);
    ground.sub(place, sort);
    if ground.rng.chance(50) {
        ground.literal(variable);
    }
}

/// Two sorts that differ at the innermost part.
fn joined(ground: &mut Ground, depth: usize) {
    let functions = ground.rng.chance(50);
    let one = nested_sort(ground, kind::POS, depth, functions);
    let other = nested_sort(ground, kind::INT, depth, functions);
    let target = ground.variable();
    ground.join(target, &[one, other]);
}
