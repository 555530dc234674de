//! Lists with two places to take times on.

use common::junk::Junk;
use lists::memory::*;
use lists::rng::Rng;

use crate::cases::mixed::add_random;
use crate::terms::Terms;

/// What the two places are.
#[derive(Clone, Copy)]
pub enum Timed {
    /// Any two of a small list.
    Small,
    /// Containers over containers, this deep, over a variable and a sort.
    Containers(usize),
    /// Functions of 16 arguments, containers over variables and over sorts.
    Wide,
    /// Functions of 16 arguments which are such functions.
    WideTwice,
    /// The first of this many variables, each bound to the next and the last one free, and a sort.
    Bindings(usize),
}

impl Timed {
    pub const ALL: [Timed; 7] = [
        Timed::Small,
        Timed::Containers(100),
        Timed::Containers(1_000),
        Timed::Wide,
        Timed::WideTwice,
        Timed::Bindings(50),
        Timed::Bindings(500),
    ];

    pub fn name(self) -> String {
        match self {
            Timed::Small => "small terms".to_string(),
            Timed::Containers(depth) => format!("containers, {depth} deep"),
            Timed::Wide => "16 arguments".to_string(),
            Timed::WideTwice => "16 arguments of 16".to_string(),
            Timed::Bindings(count) => format!("{count} bindings"),
        }
    }

    /// List `index` of a seed, and the places.
    pub fn case(self, seed: u64, index: u64) -> (Memory, (u16, u16)) {
        let rng = &mut Rng::of_list(seed, index);
        let mut terms = Terms::new(rng);
        let pair = match self {
            Timed::Small => small(&mut terms),
            Timed::Containers(depth) => containers(&mut terms, depth),
            Timed::Wide => wide(&mut terms),
            Timed::WideTwice => wide_twice(&mut terms),
            Timed::Bindings(count) => bindings(&mut terms, count),
        };
        (terms.memory(&Junk::new(seed)), pair)
    }
}

fn small(terms: &mut Terms) -> (u16, u16) {
    add_random(terms);
    loop {
        let (lhs, rhs) = terms.pair();
        if lhs != rhs {
            return (lhs, rhs);
        }
    }
}

fn containers(terms: &mut Terms, depth: usize) -> (u16, u16) {
    let (mut lhs, mut rhs) = (terms.fresh(), kind::NAT);
    for _ in 0..depth {
        let kind = terms.container_kind();
        (lhs, rhs) = (terms.container(kind, lhs), terms.container(kind, rhs));
    }
    (lhs, rhs)
}

fn wide(terms: &mut Terms) -> (u16, u16) {
    let parts = [(); MAX_ARGUMENTS].map(|()| {
        let (kind, variable, sort) = (terms.container_kind(), terms.fresh(), terms.fixed());
        (terms.container(kind, variable), terms.container(kind, sort))
    });
    functions(terms, parts)
}

fn wide_twice(terms: &mut Terms) -> (u16, u16) {
    let parts = [(); MAX_ARGUMENTS].map(|()| wide(terms));
    functions(terms, parts)
}

fn functions(terms: &mut Terms, parts: [(u16, u16); MAX_ARGUMENTS]) -> (u16, u16) {
    let (lhs, rhs) = (parts.map(|(lhs, _)| lhs), parts.map(|(_, rhs)| rhs));
    (terms.function(&lhs, kind::BOOL), terms.function(&rhs, kind::BOOL))
}

fn bindings(terms: &mut Terms, count: usize) -> (u16, u16) {
    let nodes: Vec<u16> = (0..count).map(|_| terms.fresh()).collect();
    for (variable, &next) in nodes.iter().skip(1).enumerate() {
        terms.bind(variable as u16, next);
    }
    (nodes[0], kind::NAT)
}
