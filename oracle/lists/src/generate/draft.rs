//! A list under construction, with a hidden sort for each variable, so that constraints which some
//! assignment meets can be chosen on purpose.

use crate::checks;
use crate::generate::tree::Tree;
use crate::given::Given;
use crate::memory::*;
use crate::question::Question;
use crate::rng::Rng;

/// No sort or node is nested deeper: deeper ones with shared parts take the Rust exponential time.
const DEEPEST: usize = 5;

pub struct Draft<'a> {
    pub rng: &'a mut Rng,
    pub list: Given,
    /// The place of the last disjunction: later constraints come back to it.
    pub focus: Option<u16>,
    sorts: Vec<Tree>,
    variables: Vec<Tree>,
    nodes: Vec<Tree>,
}

impl<'a> Draft<'a> {
    pub fn new(rng: &'a mut Rng) -> Draft<'a> {
        let sorts = (kind::UNIT..=kind::REAL).map(Tree::fixed).collect();
        Draft { rng, list: Given::new(""), focus: None, sorts, variables: Vec::new(), nodes: Vec::new() }
    }

    /// The hidden sort of a place.
    pub fn tree(&self, word: u16) -> &Tree {
        match Place::of(word) {
            Place::Sort(sort) => &self.sorts[usize::from(sort)],
            Place::Node(node) => &self.nodes[usize::from(node)],
        }
    }

    pub fn sort_tree(&self, sort: u16) -> &Tree {
        &self.sorts[usize::from(sort)]
    }

    // Sorts.

    pub fn any_sort(&mut self) -> u16 {
        self.rng.below(self.sorts.len()) as u16
    }

    /// A sort like another one, if a few tries find one.
    pub fn sort_like(&mut self, sort: u16) -> Option<u16> {
        let tree = self.sort_tree(sort).clone();
        for _ in 0..20 {
            let other = self.any_sort();
            if other != sort && self.sort_tree(other).is_like(&tree) {
                return Some(other);
            }
        }
        None
    }

    /// Mostly a number or Bool, else any sort of the list.
    pub fn common_sort(&mut self) -> u16 {
        match self.rng.chance(60) {
            true => self.rng.pick(&[kind::BOOL, kind::POS, kind::POS, kind::NAT, kind::NAT, kind::INT, kind::REAL]),
            false => self.any_sort(),
        }
    }

    /// Appends a random sort unless the list has it.
    pub fn add_sort(&mut self) {
        let part = self.common_sort();
        let (row, tree, arguments) = match self.rng.below(10) {
            0..=5 => {
                let container = self.rng.between(kind::LIST.into(), kind::FBAG.into()) as u16;
                (Row::plain(container, part), Tree::container(container, self.sort_tree(part)), Vec::new())
            }
            6..=8 => self.function_sort(part),
            _ => {
                let row = Row::plain(self.rng.pick(&[kind::DEF, kind::TYPE_VAR]), self.rng.pick(&[0, 1, 65_535]));
                (row, Tree::Leaf(row.kind, row.part), Vec::new())
            }
        };
        if self.sorts.contains(&tree) || tree.depth() > DEEPEST {
            return;
        }
        self.list.entries.extend(arguments);
        self.list.sorts.push(row);
        self.sorts.push(tree);
    }

    fn function_sort(&mut self, range: u16) -> (Row, Tree, Vec<u16>) {
        let arguments = self.arguments(Draft::common_sort);
        let trees = arguments.iter().map(|&argument| self.sort_tree(argument).clone()).collect();
        let start = self.list.entries.len() as u16;
        let row = Row { kind: kind::FUNCTION, part: range, start, count: arguments.len() as u16 };
        (row, Tree::Function(trees, Box::new(self.sort_tree(range).clone())), arguments)
    }

    /// Few arguments, or now and then as many as there may be, flat ones then.
    fn arguments(&mut self, part: fn(&mut Self) -> u16) -> Vec<u16> {
        if self.rng.chance(2) {
            return (0..MAX_ARGUMENTS).map(|_| self.rng.between(kind::BOOL.into(), kind::REAL.into()) as u16).collect();
        }
        (0..self.rng.pick(&[0, 1, 1, 1, 2, 2, 3])).map(|_| part(self)).collect()
    }

    // Variables and nodes.

    fn push_node(&mut self, row: Row, tree: Tree) -> u16 {
        self.list.nodes.push(row);
        self.nodes.push(tree);
        Place::Node(self.nodes.len() as u16 - 1).word()
    }

    /// A new variable with its node.
    pub fn add_variable(&mut self, tree: Tree) -> u16 {
        let variable = self.variables.len() as u16;
        self.list.bindings.push(FREE);
        self.variables.push(tree.clone());
        self.push_node(Row::plain(kind::VARIABLE, variable), tree)
    }

    pub fn add_random_variable(&mut self) {
        let sort = self.common_sort();
        let tree = match self.rng.chance(20) {
            true => {
                let container = self.rng.pick(&[kind::SET, kind::FSET, kind::BAG, kind::LIST]);
                Tree::container(container, self.sort_tree(sort))
            }
            false => self.sort_tree(sort).clone(),
        };
        self.add_variable(tree);
    }

    /// A second node of a variable, or a variable without a node.
    pub fn add_odd_variable(&mut self) {
        if self.variables.is_empty() || self.rng.chance(50) {
            let sort = self.common_sort();
            self.list.bindings.push(FREE);
            self.variables.push(self.sort_tree(sort).clone());
        } else {
            let variable = self.rng.below(self.variables.len());
            let tree = self.variables[variable].clone();
            self.push_node(Row::plain(kind::VARIABLE, variable as u16), tree);
        }
    }

    /// A container or function node over places so far.
    pub fn add_node(&mut self) {
        let part = self.part();
        if self.tree(part).depth() >= DEEPEST {
            return;
        }
        if self.rng.chance(60) {
            let container = self.rng.between(kind::LIST.into(), kind::FBAG.into()) as u16;
            let tree = Tree::container(container, self.tree(part));
            self.push_node(Row::plain(container, part), tree);
            return;
        }
        let arguments = self.arguments(Draft::part);
        let trees: Vec<Tree> = arguments.iter().map(|&argument| self.tree(argument).clone()).collect();
        let tree = Tree::Function(trees, Box::new(self.tree(part).clone()));
        let start = self.list.node_entries.len() as u16;
        let count = arguments.len() as u16;
        if tree.depth() <= DEEPEST {
            self.list.node_entries.extend(arguments);
            self.push_node(Row { kind: kind::FUNCTION, part, start, count }, tree);
        }
    }

    /// A part of a new node: mostly a node so far.
    fn part(&mut self) -> u16 {
        match self.nodes.is_empty() || self.rng.chance(30) {
            true => self.common_sort(),
            false => Place::Node(self.rng.below(self.nodes.len()) as u16).word(),
        }
    }

    // Places.

    /// A sort or a node, nodes more often.
    pub fn any_place(&mut self) -> u16 {
        match self.focus {
            Some(place) if self.rng.chance(25) => place,
            _ => self.part(),
        }
    }

    /// A place whose hidden sort passes a test, if a few tries find one.
    pub fn place_where(&mut self, passes: impl Fn(&Tree) -> bool) -> Option<u16> {
        for _ in 0..20 {
            let place = self.any_place();
            if passes(self.tree(place)) {
                return Some(place);
            }
        }
        None
    }

    /// A place of a hidden sort: one so far, else a new variable.
    pub fn place_of(&mut self, tree: &Tree) -> u16 {
        match self.place_where(|other| other == tree) {
            Some(place) => place,
            None => self.add_variable(tree.clone()),
        }
    }

    /// The node of a variable, a new one if there is none.
    pub fn some_variable(&mut self) -> u16 {
        let is_variable = |row: &Row| row.kind == kind::VARIABLE;
        let nodes: Vec<usize> = (0..self.nodes.len()).filter(|&node| is_variable(&self.list.nodes[node])).collect();
        if nodes.is_empty() {
            let sort = self.common_sort();
            return self.add_variable(self.sort_tree(sort).clone());
        }
        Place::Node(self.rng.pick(&nodes) as u16).word()
    }

    // Bindings.

    /// Binds a free variable to a place, mostly one of its hidden sort; not into a cycle.
    pub fn add_binding(&mut self) {
        if self.variables.is_empty() {
            return;
        }
        let variable = self.rng.below(self.variables.len());
        let tree = self.variables[variable].clone();
        let place = match self.rng.chance(80) {
            true => self.place_where(|other| *other == tree),
            false => Some(self.any_place()),
        };
        let Some(place) = place.filter(|_| self.list.bindings[variable] == FREE) else { return };
        self.list.bindings[variable] = place;
        if checks::first_failing(&self.list.memory(), Question::Unify(0, 0)) == Some(7) {
            self.list.bindings[variable] = FREE;
        }
    }
}
