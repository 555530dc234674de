//! A choice that fixes two variables at once, and later constraints whose components tell the choices apart: the
//! worse ones are dropped, between constraints and not between the sources of a Join, and make sorts and nodes on
//! the way.

use lists::given::Given;
use lists::memory::*;
use lists::rng::Rng;

use crate::cases::ground::Ground;

pub fn dropped(rng: &mut Rng) -> Given {
    let mut ground = Ground::new(rng);
    for _ in 0..ground.rng.between(1, 4) {
        ground.add_sort();
    }
    let [first, second, third] = [(); 3].map(|()| ground.variable());
    let both = ground.function(&[first, second], third);
    if ground.rng.chance(30) {
        ground.add_node();
    }
    add_choice(&mut ground, both);
    let places = [first, second, third];
    if ground.rng.chance(30) {
        let place = ground.variable();
        let overloads: Vec<u16> = (0..ground.rng.between(2, 3)).map(|_| ground.number()).collect();
        ground.disjunction(place, &overloads);
    }
    for _ in 0..ground.rng.between(1, 4) {
        add_measured(&mut ground, &places);
    }
    ground.finish()
}

/// Functions of two sorts, the first one a number; the second one is often a number where it comes first, and a
/// finite container later.
fn add_choice(ground: &mut Ground, both: u16) {
    let mut overloads = Vec::new();
    for index in 0..ground.rng.between(2, 4) {
        let number = ground.number();
        let second = match ground.rng.below(10) {
            0..=5 if index == 0 => ground.number(),
            0..=4 => {
                let (kind, part) = (ground.rng.pick(&[kind::FSET, kind::FBAG]), ground.common_sort());
                ground.container_sort(kind, part)
            }
            _ => ground.common_sort(),
        };
        let range = if ground.rng.chance(70) { kind::BOOL } else { ground.common_sort() };
        overloads.push(ground.function_sort(&[number, second], range));
    }
    ground.disjunction(both, &overloads);
}

fn add_measured(ground: &mut Ground, places: &[u16]) {
    let place = if ground.rng.chance(60) { places[0] } else { ground.rng.pick(places) };
    match ground.rng.below(10) {
        0 | 1 => {
            let number = if ground.rng.chance(50) { kind::REAL } else { ground.number() };
            ground.sub(place, number);
        }
        2 => {
            let number = if ground.rng.chance(50) { kind::POS } else { ground.number() };
            ground.sub(number, place);
        }
        3 => ground.literal(place),
        4 | 5 => {
            let free = ground.variable();
            let sort = ground.any_sort();
            ground.sub(sort, free);
        }
        6 => {
            let (sort, other) = (ground.common_sort(), ground.place());
            ground.sub(sort, other);
        }
        _ => add_join(ground, places),
    }
}

/// Mostly of the first two places, so that the first source tells choices apart and the second one makes sorts.
fn add_join(ground: &mut Ground, places: &[u16]) {
    let mut sources = vec![places[0], places[1]];
    if ground.rng.chance(40) {
        sources.clear();
        for _ in 0..ground.rng.between(2, 3) {
            let source = if ground.rng.chance(25) { ground.common_sort() } else { ground.rng.pick(places) };
            sources.push(source);
        }
    }
    let target = match ground.rng.below(6) {
        0 => ground.variable(),
        1 => ground.common_sort(),
        _ => ground.number(),
    };
    ground.join(target, &sources);
}
