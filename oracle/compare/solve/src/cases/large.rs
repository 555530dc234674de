//! Long lists, at the ceilings or one below: constraints, components, expressions, variables, overloads, sources. Few
//! of the constraints can be met in more than one way, so that the search stays short.

use lists::given::Given;
use lists::memory::*;
use lists::rng::Rng;

use crate::cases::ground::Ground;
use crate::cases::pad;
use crate::layout::components;

/// A ceiling, or one below, or less.
fn length(rng: &mut Rng, ceiling: usize) -> usize {
    match rng.below(5) {
        0 | 1 => ceiling,
        2 => ceiling - 1,
        _ => rng.between(ceiling / 4, ceiling),
    }
}

pub fn large(rng: &mut Rng) -> Given {
    let [constraints, components, exprs, variables] =
        [MAX_CONSTRAINTS, MAX_COMPONENTS, MAX_EXPRESSIONS, MAX_VARIABLES].map(|ceiling| length(rng, ceiling));
    let ground = Ground::new(rng);
    let fails = ground.rng.chance(25);
    // A list that fails takes all ways of all constraints.
    let (ways, choices) = if fails { (2, 1) } else { (60, ground.rng.pick(&[0, 0, 0, 1, 4])) };
    let mut long = Long { ground, ways, choices, variables };
    long.add_sorts();
    if !fails && long.ground.rng.chance(50) {
        long.add_measured_choice();
    }
    if !fails && long.ground.rng.chance(15) {
        long.add_shared_joins(components, constraints);
    }
    let last = usize::from(fails);
    long.add_constraints(components - last, constraints - last);
    let mut ground = long.ground;
    if fails {
        ground.sub(kind::NAT, kind::POS);
    }
    fill(&mut ground, exprs, variables);
    if ground.rng.chance(50) {
        let count = length(ground.rng, MAX_OVERLOADS);
        let overloads = &mut ground.list.overloads;
        overloads.resize(count.max(overloads.len()), [9, 9, 9]);
    }
    if ground.rng.chance(50) {
        let count = length(ground.rng, MAX_SOURCES);
        pad::entries(&mut ground.list.sources, count);
    }
    let mut list = ground.finish();
    if rng.chance(4) {
        name_again(rng, &mut list);
    }
    list
}

/// More base names than there can be expressions; some expression has two.
fn name_again(rng: &mut Rng, list: &mut Given) {
    let count = rng.between(MAX_EXPRESSIONS + 1, 700);
    while list.names.len() < count {
        let expression = rng.below(list.exprs.len().max(1)) as u16;
        list.names.push([expression, target::VARIABLE, 0]);
    }
}

/// So many constraints, each met in one way or at its first try, and at least so many expressions and variables.
pub fn long_list(rng: &mut Rng, constraints: usize, exprs: usize, variables: usize) -> Given {
    let mut long = Long { ground: Ground::new(rng), ways: 60, choices: 0, variables: variables.max(60) };
    long.add_sorts();
    long.add_constraints(MAX_COMPONENTS, constraints);
    fill(&mut long.ground, exprs, variables);
    long.ground.finish()
}

/// Expressions and variables that are not there yet.
fn fill(ground: &mut Ground, exprs: usize, variables: usize) {
    while ground.list.bindings.len() < variables {
        let place = ground.variable();
        if ground.rng.chance(10) {
            ground.expression(place);
        }
        if ground.rng.chance(20) {
            ground.bind_last();
        }
    }
    while ground.list.exprs.len() < exprs {
        let place = if ground.rng.chance(50) { ground.any_sort() } else { ground.place() };
        ground.expression(place);
    }
}

struct Long<'a> {
    ground: Ground<'a>,
    /// How many more constraints may be met in several ways.
    ways: usize,
    /// How many more choices may have several overloads that fit.
    choices: usize,
    variables: usize,
}

impl Long<'_> {
    /// A new variable, while there may be one more.
    fn free(&mut self) -> Option<u16> {
        (self.ground.list.bindings.len() < self.variables && self.ground.list.nodes.len() < MAX_NODES / 2)
            .then(|| self.ground.variable())
    }

    /// The place of a constraint that can be met in several ways, while there may be one more.
    fn open(&mut self) -> Option<u16> {
        self.ways = self.ways.checked_sub(1)?;
        self.free()
    }

    fn add_sorts(&mut self) {
        for _ in 0..12 {
            self.ground.add_sort();
        }
    }

    /// Constraints up to a count, with at most so many components.
    fn add_constraints(&mut self, most_components: usize, count: usize) {
        while self.ground.list.constraints.len() < count {
            let left = most_components - components(&self.ground.list).min(most_components);
            self.add_constraint(left, count);
        }
    }

    /// A constraint of at most `components` components.
    fn add_constraint(&mut self, components: usize, constraints: usize) {
        let roll = self.ground.rng.below(20);
        match roll {
            0..=5 if components > 0 => self.add_sub(),
            6..=8 if components > 0 => self.add_literal(),
            9..=11 if components > 0 => self.add_join(components, constraints),
            12..=13 => self.add_comprehension(),
            _ => self.add_choice(),
        }
    }

    /// A choice of numbers that the component of the next constraint tells apart.
    fn add_measured_choice(&mut self) {
        let place = self.ground.variable();
        let overloads = [(); 3].map(|()| self.ground.number());
        self.ground.disjunction(place, &overloads);
        self.ground.sub(place, kind::REAL);
    }

    /// Joins over one run, so that there are more components than sources.
    fn add_shared_joins(&mut self, most_components: usize, constraints: usize) {
        let count = self.ground.rng.pick(&[2, 16, 64, 100]);
        let sources: Vec<u16> = (0..count).map(|_| self.ground.number()).collect();
        let left = most_components - components(&self.ground.list);
        for _ in 0..left / count {
            if self.ground.list.constraints.len() + 1 < constraints {
                self.ground.join(kind::REAL, &sources);
                self.ground.list.sources.truncate(count);
                self.ground.list.constraints.last_mut().expect("it was pushed")[2] = 0;
            }
        }
    }

    fn add_sub(&mut self) {
        let wide = self.ground.number();
        let narrow = self.ground.rng.between(kind::POS.into(), wide.into()) as u16;
        match self.ground.rng.below(6) {
            0 => {
                let place = self.open().unwrap_or(wide);
                self.ground.sub(narrow, place);
            }
            1 => {
                let argument = self.ground.common_sort();
                let from = self.ground.function_sort(&[argument], narrow);
                let to = self.ground.function_sort(&[argument], wide);
                self.ground.sub(from, to);
            }
            2 => {
                let part = self.ground.common_sort();
                let (finite, infinite) = self.ground.rng.pick(&[(kind::FSET, kind::SET), (kind::FBAG, kind::BAG)]);
                let (from, to) = (self.ground.container_sort(finite, part), self.ground.container_sort(infinite, part));
                self.ground.sub(from, to);
            }
            3 => {
                let part = self.ground.common_sort();
                let place = self.free().unwrap_or(part);
                let (from, to) =
                    (self.ground.container(kind::FSET, place), self.ground.container_sort(kind::SET, part));
                self.ground.sub(from, to);
            }
            _ => self.ground.sub(narrow, wide),
        }
    }

    fn add_literal(&mut self) {
        let place = match self.ground.rng.chance(30) {
            true => self.open(),
            false => None,
        };
        let place = place.unwrap_or(self.ground.rng.between(kind::NAT.into(), kind::REAL.into()) as u16);
        self.ground.literal(place);
    }

    /// Numbers into a number or an open place; where few constraints are wanted, many sources.
    fn add_join(&mut self, components: usize, constraints: usize) {
        let most = if constraints < 100 { 100 } else { 2 };
        let room = MAX_SOURCES - self.ground.list.sources.len();
        let count = self.ground.rng.between(1, most).min(components).min(room);
        if count == 0 {
            return self.add_choice();
        }
        let sources: Vec<u16> = (0..count).map(|_| self.ground.number()).collect();
        let widest = *sources.iter().max().expect("there is one");
        match self.join_target(widest) {
            Some(target) => self.ground.join(target, &sources),
            None => self.add_choice(),
        }
    }

    /// A target for numbers. The widest of them can be met in both ways of a Join.
    fn join_target(&mut self, widest: u16) -> Option<u16> {
        let target = match self.ground.rng.chance(40) {
            true => self.open(),
            false => None,
        };
        if target.is_some() {
            return target;
        }
        let target = self.ground.rng.between(widest.into(), kind::REAL.into()) as u16;
        if target == widest {
            self.ways = self.ways.checked_sub(1)?;
        }
        Some(target)
    }

    fn add_comprehension(&mut self) {
        let element = self.ground.number();
        let (body, kind) =
            self.ground.rng.pick(&[(kind::BOOL, kind::SET), (kind::NAT, kind::BAG), (kind::POS, kind::BAG)]);
        let node = match self.free().filter(|_| self.ground.rng.chance(50)) {
            Some(node) => node,
            None => self.ground.container_sort(kind, element),
        };
        self.ground.comprehension(body, node, element);
    }

    /// One overload fits, or, in few choices, two.
    fn add_choice(&mut self) {
        let room = MAX_OVERLOADS - self.ground.list.overloads.len();
        if self.ground.list.exprs.len() == MAX_EXPRESSIONS || room < 3 {
            return self.add_comprehension();
        }
        let long = room > 500 && self.ground.rng.chance(3);
        let count = if long { self.ground.rng.between(300, 500) } else { self.ground.rng.between(1, 3) };
        let sort = self.ground.number();
        let mut overloads: Vec<u16> = (0..count)
            .map(|_| match self.ground.any_sort() {
                other if other == sort => kind::UNIT,
                other => other,
            })
            .collect();
        let fitting = self.ground.rng.below(count);
        overloads[fitting] = sort;
        if self.choices > 0 && count > 1 && self.ground.rng.chance(10) {
            self.choices -= 1;
            overloads[(fitting + 1) % count] = sort;
        }
        let place = if self.ground.rng.chance(30) { self.bound_to(sort) } else { sort };
        self.ground.disjunction(place, &overloads);
    }

    /// A variable that is bound to a sort, while there may be one more.
    fn bound_to(&mut self, sort: u16) -> u16 {
        let Some(place) = self.free() else { return sort };
        let last = self.ground.list.bindings.len() - 1;
        self.ground.list.bindings[last] = sort;
        place
    }
}
