//! Random problems: every number in them may be anything.

use julqetai::ComplexSort;
use julqetai::ExprId;
use julqetai::LitKind;
use julqetai::NameTarget;
use julqetai::Node;
use julqetai::NodeId;
use julqetai::Overload;
use julqetai::Place;
use julqetai::Problem;
use julqetai::Sort;
use julqetai::SortId;
use julqetai::SortVar;

/// splitmix64.
pub struct Rng(pub u64);

impl Rng {
    pub fn next(&mut self) -> u64 {
        self.0 = self.0.wrapping_add(0x9e37_79b9_7f4a_7c15);
        let mixed = (self.0 ^ self.0 >> 30).wrapping_mul(0xbf58_476d_1ce4_e5b9);
        let mixed = (mixed ^ mixed >> 27).wrapping_mul(0x94d0_49bb_1331_11eb);
        mixed ^ mixed >> 31
    }

    pub fn below(&mut self, bound: usize) -> usize {
        (self.next() % bound as u64) as usize
    }

    pub fn chance(&mut self, percent: usize) -> bool {
        self.below(100) < percent
    }
}

/// How wild the numbers are: of a hundred, so many are any word.
pub struct Wild<'a> {
    pub rng: &'a mut Rng,
    pub percent: usize,
    pub problem: Problem,
}

impl Wild<'_> {
    /// A number below `count`, or about where lists end, or any word.
    fn number(&mut self, count: usize) -> u16 {
        if !self.rng.chance(self.percent) {
            return self.rng.below(count.max(1)) as u16;
        }
        let about = [count, 6, 512, 1_023, 1_024, 2_048, 3_072, 4_096, 64_510, 64_511, 65_534, 65_535];
        match self.rng.chance(50) {
            true => (about[self.rng.below(about.len())] + self.rng.below(3)).saturating_sub(1).min(65_535) as u16,
            false => self.rng.next() as u16,
        }
    }

    fn sort_id(&mut self) -> SortId {
        SortId(self.number(self.problem.sort_count()))
    }

    fn place(&mut self, nodes: usize) -> Place {
        match nodes > 0 && self.rng.chance(60) {
            true => Place::Node(NodeId(self.number(nodes))),
            false => Place::Sort(self.sort_id()),
        }
    }

    fn op(&mut self) -> ComplexSort {
        use ComplexSort::*;
        [List, Set, FSet, Bag, FBag][self.rng.below(5)]
    }

    /// A short length, or now and then one past the most arguments, or a very long one.
    fn length(&mut self) -> usize {
        match self.rng.below(100) < self.percent {
            true => [16, 17, 18, 256, 257, 1_025, 4_097][self.rng.below(7) * self.rng.below(2) * self.rng.below(2)],
            false => self.rng.below(4),
        }
    }

    fn target(&mut self) -> NameTarget {
        match self.rng.below(3) {
            0 => NameTarget::Variable,
            1 => NameTarget::Builtin,
            _ => NameTarget::Op { sort: self.sort_id() },
        }
    }

    fn add_sort(&mut self) {
        let (op, part, number) = (self.op(), self.sort_id(), self.number(4));
        let domain: Vec<SortId> = (0..self.length()).map(|_| self.sort_id()).collect();
        let sorts = [
            Sort::Container { op, subsort: part },
            Sort::Function { domain: &domain, range: part },
            Sort::Def(number),
            Sort::TypeVar(number),
            Sort::Unit,
            Sort::Nat,
        ];
        let kinds = if self.rng.chance(self.percent) { 6 } else { 4 };
        let sort = sorts[self.rng.below(kinds)];
        match self.rng.chance(self.percent) {
            true => self.problem.add_sort(sort),
            false => self.problem.intern(sort),
        };
    }

    fn add_node(&mut self, nodes: usize, variables: usize) {
        let (op, part, var) = (self.op(), self.place(nodes), SortVar(self.number(variables)));
        let domain: Vec<Place> = (0..self.length()).map(|_| self.place(nodes)).collect();
        let nodes =
            [Node::Generic { op, subsort: part }, Node::Function { domain: &domain, range: part }, Node::Var(var)];
        self.problem.add_node(nodes[self.rng.below(3)]);
    }

    fn add_constraint(&mut self, nodes: usize, exprs: usize) {
        let (a, b, sort) = (self.place(nodes), self.place(nodes), self.sort_id());
        match self.rng.below(5) {
            0 => self.problem.sub(a, b),
            1 => self.problem.lit(a, if self.rng.chance(50) { LitKind::Natural } else { LitKind::Positive }),
            2 => {
                let overloads: Vec<Overload> =
                    (0..self.length()).map(|_| Overload { target: self.target(), sort: self.place(nodes) }).collect();
                let expr = ExprId(self.number(exprs));
                self.problem.disjunction(expr, a, &overloads);
            }
            3 => self.problem.comprehension(a, b, sort),
            _ => {
                let sources: Vec<Place> = (0..self.length()).map(|_| self.place(nodes)).collect();
                self.problem.join(&sources, a);
            }
        }
    }
}

/// A problem of a few rows.
pub fn problem(rng: &mut Rng) -> Problem {
    let percent = [0, 0, 1, 3, 10, 50, 100][rng.below(7)];
    let problem = if rng.below(100) < percent / 3 { Problem::bare() } else { Problem::new() };
    let mut wild = Wild { rng, percent, problem };
    for _ in 0..wild.rng.below(6) {
        wild.add_sort();
    }
    let variables = wild.rng.below(4);
    for _ in 0..variables {
        wild.problem.fresh_var();
    }
    let mut nodes = variables;
    for _ in 0..wild.rng.below(5) {
        wild.add_node(nodes, variables);
        nodes += 1;
    }
    for var in 0..variables {
        if wild.rng.chance(10) {
            let place = wild.place(nodes);
            wild.problem.bind(SortVar(var as u16), place).expect("the variable is there");
        }
    }
    let exprs = wild.rng.below(4);
    for _ in 0..exprs {
        let place = wild.place(nodes);
        wild.problem.add_expr(place);
    }
    if exprs > 0 && wild.rng.chance(30) {
        let (expr, target) = (ExprId(wild.number(exprs)), wild.target());
        wild.problem.add_name(expr, target);
    }
    for _ in 0..wild.rng.below(6) {
        wild.add_constraint(nodes, exprs);
    }
    if wild.rng.chance(10) {
        let sort = wild.sort_id();
        wild.problem.set_default(sort);
    }
    wild.problem
}
