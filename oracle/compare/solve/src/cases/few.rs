//! One to five constraints over a few sorts and nodes, mostly finite containers, functions and numbers, whose
//! widenings make sorts and nodes.

use lists::given::Given;
use lists::memory::*;
use lists::rng::Rng;

use crate::cases::ground::Ground;

pub fn few(rng: &mut Rng) -> Given {
    let mut ground = Ground::new(rng);
    add_places(&mut ground);
    for _ in 0..ground.rng.below(3) {
        let place = ground.place();
        ground.expression(place);
    }
    for _ in 0..ground.rng.pick(&[1, 1, 2, 2, 2, 3, 3, 4, 5]) {
        add_constraint(&mut ground);
    }
    ground.finish()
}

pub fn add_places(ground: &mut Ground) {
    for _ in 0..ground.rng.below(5) {
        ground.add_sort();
    }
    for _ in 0..ground.rng.between(1, 3) {
        ground.variable();
    }
    for _ in 0..ground.rng.below(4) {
        ground.add_node();
    }
    if ground.rng.chance(25) {
        ground.add_binding();
    }
}

fn add_constraint(ground: &mut Ground) {
    match ground.rng.below(10) {
        0..=3 => {
            let (lhs, rhs) = (ground.place(), ground.place());
            ground.sub(lhs, rhs);
        }
        4 => {
            let place = ground.place();
            ground.literal(place);
        }
        5 | 6 => add_disjunction(ground),
        7 => {
            let body = if ground.rng.chance(40) { ground.rng.pick(&[1, 2, 3]) } else { ground.place() };
            let (node, element) = (ground.place(), ground.common_sort());
            ground.comprehension(body, node, element);
        }
        _ => {
            let target = ground.place();
            let related = ground.rng.chance(30);
            let count = ground.rng.between(1, 3);
            let sources: Vec<u16> =
                (0..count).map(|_| if related { related_sort(ground) } else { ground.place() }).collect();
            ground.join(target, &sources);
        }
    }
}

/// One of a few sorts that have a join with one another, two by two.
fn related_sort(ground: &mut Ground) -> u16 {
    let number = ground.number();
    match ground.rng.below(5) {
        0 => {
            let argument = ground.number();
            ground.function_sort(&[argument], number)
        }
        _ => {
            let kind = ground.rng.pick(&[kind::FSET, kind::SET]);
            ground.container_sort(kind, number)
        }
    }
}

fn add_disjunction(ground: &mut Ground) {
    let place = ground.place();
    let count = ground.rng.pick(&[0, 1, 2, 2, 2, 3, 3, 4]);
    let mut overloads: Vec<u16> = (0..count).map(|_| ground.place()).collect();
    if let Some(last) = overloads.last_mut()
        && place < FIRST_NODE
    {
        *last = place;
    }
    ground.disjunction(place, &overloads);
}
