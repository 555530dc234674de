//! A list under construction from single rows: sorts, nodes, variables, expressions and constraints.

use lists::given::Given;
use lists::memory::*;
use lists::rng::Rng;

pub struct Ground<'a> {
    pub rng: &'a mut Rng,
    pub list: Given,
}

impl<'a> Ground<'a> {
    /// The fixed six sorts.
    pub fn new(rng: &'a mut Rng) -> Ground<'a> {
        Ground { rng, list: Given::new("") }
    }

    // Sorts: the number of an equal one, or one more row.

    pub fn container_sort(&mut self, kind: u16, part: u16) -> u16 {
        let row = Row::plain(kind, part);
        let there = self.list.sorts.iter().position(|&other| other == row);
        there.unwrap_or_else(|| {
            self.list.sorts.push(row);
            self.list.sorts.len() - 1
        }) as u16
    }

    pub fn function_sort(&mut self, arguments: &[u16], range: u16) -> u16 {
        let list = &mut self.list;
        let run = |row: &Row| &list.entries[usize::from(row.start)..][..usize::from(row.count)];
        let equal = |row: &Row| row.kind == kind::FUNCTION && row.part == range && run(row) == arguments;
        if let Some(number) = list.sorts.iter().position(equal) {
            return number as u16;
        }
        let (start, count) = (list.entries.len() as u16, arguments.len() as u16);
        list.entries.extend(arguments);
        list.sorts.push(Row { kind: kind::FUNCTION, part: range, start, count });
        list.sorts.len() as u16 - 1
    }

    pub fn number(&mut self) -> u16 {
        self.rng.between(kind::POS.into(), kind::REAL.into()) as u16
    }

    /// Mostly a number, else any sort.
    pub fn common_sort(&mut self) -> u16 {
        match self.rng.below(10) {
            0..=5 => self.number(),
            6 => kind::BOOL,
            _ => self.any_sort(),
        }
    }

    pub fn any_sort(&mut self) -> u16 {
        self.rng.below(self.list.sorts.len()) as u16
    }

    /// Finite containers more often than others.
    pub fn container_kind(&mut self) -> u16 {
        self.rng.pick(&[kind::FSET, kind::FSET, kind::FSET, kind::SET, kind::SET, kind::FBAG, kind::BAG, kind::LIST])
    }

    pub fn add_sort(&mut self) {
        let part = self.common_sort();
        if self.rng.chance(50) {
            let kind = self.container_kind();
            self.container_sort(kind, part);
        } else {
            let count = self.rng.pick(&[0, 1, 1, 1, 2]);
            let arguments: Vec<u16> = (0..count).map(|_| self.common_sort()).collect();
            self.function_sort(&arguments, part);
        }
    }

    // Variables and nodes.

    fn push_node(&mut self, row: Row) -> u16 {
        self.list.nodes.push(row);
        Place::Node(self.list.nodes.len() as u16 - 1).word()
    }

    /// A new variable, and its node.
    pub fn variable(&mut self) -> u16 {
        let variable = self.list.bindings.len() as u16;
        self.list.bindings.push(FREE);
        self.push_node(Row::plain(kind::VARIABLE, variable))
    }

    pub fn container(&mut self, kind: u16, part: u16) -> u16 {
        self.push_node(Row::plain(kind, part))
    }

    pub fn function(&mut self, arguments: &[u16], range: u16) -> u16 {
        let (start, count) = (self.list.node_entries.len() as u16, arguments.len() as u16);
        self.list.node_entries.extend(arguments);
        self.push_node(Row { kind: kind::FUNCTION, part: range, start, count })
    }

    /// A node, or now and then a sort.
    pub fn place(&mut self) -> u16 {
        match self.list.nodes.is_empty() || self.rng.chance(40) {
            true => self.common_sort(),
            false => self.some_node(),
        }
    }

    pub fn some_node(&mut self) -> u16 {
        Place::Node(self.rng.below(self.list.nodes.len()) as u16).word()
    }

    pub fn add_node(&mut self) {
        let part = self.place();
        if self.rng.chance(50) {
            let kind = self.container_kind();
            self.container(kind, part);
        } else {
            let count = self.rng.pick(&[0, 1, 1, 1, 2]);
            let arguments: Vec<u16> = (0..count).map(|_| self.place()).collect();
            self.function(&arguments, part);
        }
    }

    /// The highest variable in a node, or none.
    fn highest_variable(&self, place: u16) -> Option<u16> {
        let Place::Node(node) = Place::of(place) else { return None };
        let row = self.list.nodes[usize::from(node)];
        match row.kind {
            kind::VARIABLE => Some(row.part),
            kind::FUNCTION => {
                let run = &self.list.node_entries[usize::from(row.start)..][..usize::from(row.count)];
                let arguments = run.iter().filter_map(|&argument| self.highest_variable(argument)).max();
                arguments.max(self.highest_variable(row.part))
            }
            _ => self.highest_variable(row.part),
        }
    }

    /// Binds some variable.
    pub fn add_binding(&mut self) {
        let variable = self.rng.below(self.list.bindings.len());
        self.bind(variable);
    }

    /// Binds the last variable.
    pub fn bind_last(&mut self) {
        self.bind(self.list.bindings.len() - 1);
    }

    /// Binds a variable to a place of lower ones only, so that no variable reaches itself.
    fn bind(&mut self, variable: usize) {
        let place = self.place();
        if self.highest_variable(place).is_none_or(|highest| usize::from(highest) < variable) {
            self.list.bindings[variable] = place;
        }
    }

    // Expressions and constraints.

    /// A new expression.
    pub fn expression(&mut self, place: u16) -> u16 {
        self.list.exprs.push(place);
        self.list.exprs.len() as u16 - 1
    }

    pub fn target(&mut self) -> (u16, u16) {
        match self.rng.below(4) {
            0 => (target::VARIABLE, 0),
            1 => (target::BUILTIN, 0),
            _ => (target::OP, self.any_sort()),
        }
    }

    pub fn add_name(&mut self, expression: u16) {
        let (kind, sort) = self.target();
        self.list.names.push([expression, kind, sort]);
    }

    pub fn sub(&mut self, lhs: u16, rhs: u16) {
        self.list.constraints.push([constraint::SUB, lhs, rhs, 0, 0]);
    }

    pub fn literal(&mut self, place: u16) {
        let kind = self.rng.pick(&[literal::POSITIVE, literal::NATURAL]);
        self.list.constraints.push([constraint::LIT, place, kind, 0, 0]);
    }

    /// A choice for a new expression; mostly its place is the disjunction's.
    pub fn disjunction(&mut self, place: u16, overloads: &[u16]) {
        let own = if self.rng.chance(80) { place } else { self.place() };
        let expression = self.expression(own);
        let (start, count) = (self.list.overloads.len() as u16, overloads.len() as u16);
        for &overload in overloads {
            let (kind, sort) = self.target();
            self.list.overloads.push([kind, sort, overload]);
        }
        self.list.constraints.push([constraint::DISJUNCTION, expression, place, start, count]);
    }

    pub fn comprehension(&mut self, body: u16, node: u16, element: u16) {
        self.list.constraints.push([constraint::COMPREHENSION, body, node, element, 0]);
    }

    pub fn join(&mut self, target: u16, sources: &[u16]) {
        let (start, count) = (self.list.sources.len() as u16, sources.len() as u16);
        self.list.sources.extend(sources);
        self.list.constraints.push([constraint::JOIN, target, start, count, 0]);
    }

    /// Base names for some expressions, and a default.
    pub fn finish(mut self) -> Given {
        for expression in 0..self.list.exprs.len() as u16 {
            if self.rng.chance(25) {
                self.add_name(expression);
            }
        }
        if self.rng.chance(30) {
            self.list.default = self.any_sort();
        }
        self.list
    }
}
