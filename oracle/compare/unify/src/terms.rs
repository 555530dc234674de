//! Sorts, nodes, variables and bindings under construction. Bindings are never cyclic; runs of
//! arguments may be shared and may overlap.

use common::draft;
use common::draft::Draft;
use common::draft::put_row;
use common::junk::Junk;
use lists::memory::*;
use lists::rng::Rng;

/// What stands at a place.
enum Term {
    Variable(u16),
    Container(u16, u16),
    Function(Vec<u16>, u16),
    Leaf,
}

/// No more rows than these are added at random, so that the ceilings are met only on purpose.
const MOST_SORTS: usize = MAX_SORTS - 24;
const MOST_NODES: usize = MAX_NODES - 48;
const MOST_VARIABLES: usize = MAX_VARIABLES - 12;

pub struct Terms<'a> {
    pub sorts: Draft<'a>,
    rows: Vec<Row>,
    pub entries: Vec<u16>,
    bindings: Vec<u16>,
    /// The places of each variable's nodes.
    own: Vec<Vec<u16>>,
}

impl<'a> Terms<'a> {
    /// The fixed six sorts.
    pub fn new(rng: &'a mut Rng) -> Terms<'a> {
        let sorts = Draft::new(rng);
        Terms { sorts, rows: Vec::new(), entries: Vec::new(), bindings: Vec::new(), own: Vec::new() }
    }

    pub fn rng(&mut self) -> &mut Rng {
        self.sorts.rng
    }

    pub fn node_count(&self) -> usize {
        self.rows.len()
    }

    pub fn variable_count(&self) -> usize {
        self.bindings.len()
    }

    fn term(&self, place: u16) -> Term {
        match Place::of(place) {
            Place::Sort(sort) => {
                let shape = self.sorts.shape(sort);
                match shape.kind {
                    kind::LIST..=kind::FBAG => Term::Container(shape.kind, shape.part),
                    kind::FUNCTION => Term::Function(shape.arguments.clone(), shape.part),
                    _ => Term::Leaf,
                }
            }
            Place::Node(node) => {
                let row = self.rows[usize::from(node)];
                match row.kind {
                    kind::VARIABLE => Term::Variable(row.part),
                    kind::FUNCTION => Term::Function(self.arguments(row).to_vec(), row.part),
                    _ => Term::Container(row.kind, row.part),
                }
            }
        }
    }

    fn arguments(&self, row: Row) -> &[u16] {
        &self.entries[usize::from(row.start)..][..usize::from(row.count)]
    }

    // Variables.

    /// A new variable, without a node.
    pub fn bare(&mut self) -> u16 {
        self.bindings.push(FREE);
        self.own.push(Vec::new());
        self.bindings.len() as u16 - 1
    }

    /// One more node of a variable.
    pub fn node_of(&mut self, variable: u16) -> u16 {
        let place = self.push(Row::plain(kind::VARIABLE, variable));
        self.own[usize::from(variable)].push(place);
        place
    }

    /// The node of a new variable.
    pub fn fresh(&mut self) -> u16 {
        let variable = self.bare();
        self.node_of(variable)
    }

    /// A node of some variable, now and then of a new one.
    pub fn variable(&mut self) -> u16 {
        let all = self.variable_count();
        if all == 0 || (all < MOST_VARIABLES && self.rng().chance(15)) {
            return self.fresh();
        }
        let variable = self.rng().below(all);
        match self.own[variable].len() {
            0 => self.node_of(variable as u16),
            nodes => {
                let index = self.rng().below(nodes);
                self.own[variable][index]
            }
        }
    }

    /// A second node of a variable, which merc cannot make.
    pub fn twin(&mut self) -> u16 {
        let all = self.variable_count();
        let variable = self.rng().below(all);
        self.node_of(variable as u16)
    }

    // Nodes.

    fn push(&mut self, row: Row) -> u16 {
        self.rows.push(row);
        Place::Node(self.rows.len() as u16 - 1).word()
    }

    pub fn container(&mut self, kind: u16, part: u16) -> u16 {
        self.push(Row::plain(kind, part))
    }

    pub fn function(&mut self, arguments: &[u16], range: u16) -> u16 {
        let start = draft::run(self.sorts.rng, &mut self.entries, arguments);
        self.push(Row { kind: kind::FUNCTION, part: range, start, count: arguments.len() as u16 })
    }

    /// A function whose run is at the end of the entries.
    pub fn last_function(&mut self, arguments: &[u16], range: u16) -> u16 {
        let start = self.entries.len() as u16;
        self.entries.extend(arguments);
        self.push(Row { kind: kind::FUNCTION, part: range, start, count: arguments.len() as u16 })
    }

    /// A node, or a sort where it can be one.
    pub fn some_container(&mut self, kind: u16, part: u16) -> u16 {
        match self.can_be_sort(&[part]) {
            true => self.sorts.plain(kind, part),
            false => self.container(kind, part),
        }
    }

    /// A node, or a sort where it can be one.
    pub fn some_function(&mut self, arguments: &[u16], range: u16) -> u16 {
        match self.can_be_sort(arguments) && self.can_be_sort(&[range]) {
            true => self.sorts.function(arguments.to_vec(), range),
            false => self.function(arguments, range),
        }
    }

    fn can_be_sort(&mut self, parts: &[u16]) -> bool {
        let sorts = parts.iter().all(|&part| matches!(Place::of(part), Place::Sort(_)));
        sorts && self.sorts.count() < MOST_SORTS && self.rng().chance(50)
    }

    pub fn container_kind(&mut self) -> u16 {
        self.rng().between(kind::LIST.into(), kind::FBAG.into()) as u16
    }

    pub fn fixed(&mut self) -> u16 {
        self.rng().between(kind::UNIT.into(), kind::REAL.into()) as u16
    }

    /// Any sort or node, nodes more often.
    pub fn any(&mut self) -> u16 {
        if self.rows.is_empty() || self.rng().chance(20) {
            return self.sorts.any();
        }
        let nodes = self.node_count();
        Place::Node(self.rng().below(nodes) as u16).word()
    }

    /// A part of a new node: mostly a variable.
    fn part(&mut self) -> u16 {
        match self.rng().below(10) {
            0..=4 => self.variable(),
            5..=6 => self.fixed(),
            _ => self.any(),
        }
    }

    /// Adds a container or a function over places so far.
    pub fn add(&mut self) -> u16 {
        let part = self.part();
        if self.rng().chance(55) {
            let kind = self.container_kind();
            return self.some_container(kind, part);
        }
        let count = self.rng().pick(&[0, 1, 1, 1, 2, 2, 2, 3, 4]);
        let arguments: Vec<u16> = (0..count).map(|_| self.part()).collect();
        self.some_function(&arguments, part)
    }

    // Bindings.

    /// Binds a free variable, unless it is reached from the place.
    pub fn bind(&mut self, variable: u16, place: u16) {
        if self.bindings[usize::from(variable)] == FREE && !self.reaches(place, variable) {
            self.bindings[usize::from(variable)] = place;
        }
    }

    /// Binds some variable to a sort, to the node of another, or to any place.
    pub fn add_binding(&mut self) {
        let all = self.variable_count();
        let variable = self.rng().below(all) as u16;
        let place = match self.rng().below(4) {
            0 => self.sorts.any(),
            1 | 2 => self.variable(),
            _ => self.any(),
        };
        self.bind(variable, place);
    }

    /// A place that is a new variable, bound to the place, to a variable that is, and so on.
    pub fn behind(&mut self, mut place: u16) -> u16 {
        for _ in 0..self.rng().pick(&[1, 1, 1, 2, 3]) {
            if self.variable_count() < MOST_VARIABLES {
                let variable = self.bare();
                self.bind(variable, place);
                place = self.node_of(variable);
            }
        }
        place
    }

    fn reaches(&self, place: u16, variable: u16) -> bool {
        let mut seen = vec![false; self.rows.len()];
        let mut open = vec![place];
        while let Some(place) = open.pop() {
            let Place::Node(node) = Place::of(place) else { continue };
            if place == FREE || std::mem::replace(&mut seen[usize::from(node)], true) {
                continue;
            }
            match self.term(place) {
                Term::Variable(other) if other == variable => return true,
                Term::Variable(other) => open.push(self.bindings[usize::from(other)]),
                Term::Container(_, part) => open.push(part),
                Term::Function(arguments, range) => {
                    open.extend(arguments);
                    open.push(range);
                }
                Term::Leaf => {}
            }
        }
        false
    }

    // Pairs.

    /// Two places to ask about: mostly one made from the other, in either order.
    pub fn pair(&mut self) -> (u16, u16) {
        let lhs = match self.rng().below(10) {
            0..=2 => self.any(),
            3..=5 => self.add(),
            _ => self.large(),
        };
        let rhs = match self.rng().chance(90) {
            true => self.relative(lhs),
            false => self.any(),
        };
        if self.rng().chance(50) { (lhs, rhs) } else { (rhs, lhs) }
    }

    /// A function over new terms.
    fn large(&mut self) -> u16 {
        let count = self.rng().between(1, 4);
        let arguments: Vec<u16> =
            (0..count).map(|_| if self.rng().chance(50) { self.add() } else { self.part() }).collect();
        let range = self.part();
        self.function(&arguments, range)
    }

    /// A place made from another one: parts are kept, replaced by variables and by what variables may
    /// stand for, hidden behind bindings; now and then something else stands there.
    pub fn relative(&mut self, place: u16) -> u16 {
        let mut left = self.rng().pick(&[5, 12, 30]);
        self.changed(place, &mut left)
    }

    fn relative_part(&mut self, place: u16, left: &mut usize) -> u16 {
        if *left == 0 || self.rows.len() >= MOST_NODES {
            return place;
        }
        *left -= 1;
        match self.rng().below(100) {
            0..=7 => place,
            8..=17 => self.variable(),
            18..=29 if self.variable_count() < MOST_VARIABLES => self.fresh(),
            30..=36 => {
                let changed = self.changed(place, left);
                self.behind(changed)
            }
            37..=38 => self.any(),
            _ => self.changed(place, left),
        }
    }

    fn changed(&mut self, place: u16, left: &mut usize) -> u16 {
        match self.term(place) {
            Term::Variable(variable) => self.changed_variable(variable, place, left),
            Term::Container(kind, part) => {
                let part = self.relative_part(part, left);
                let kind = if self.rng().chance(4) { self.container_kind() } else { kind };
                self.some_container(kind, part)
            }
            Term::Function(arguments, range) => {
                let mut arguments: Vec<u16> =
                    arguments.into_iter().map(|argument| self.relative_part(argument, left)).collect();
                if self.rng().chance(5) {
                    match arguments.len() {
                        0 => arguments.push(range),
                        _ => arguments.truncate(arguments.len() - 1),
                    }
                }
                let range = self.relative_part(range, left);
                self.some_function(&arguments, range)
            }
            Term::Leaf if self.rng().chance(6) => self.fixed(),
            Term::Leaf => place,
        }
    }

    fn changed_variable(&mut self, variable: u16, place: u16, left: &mut usize) -> u16 {
        let bound = self.bindings[usize::from(variable)];
        match self.rng().below(20) {
            0..=3 => place,
            4..=11 if bound != FREE => self.relative_part(bound, left),
            4..=9 => self.variable(),
            10..=13 => self.fixed(),
            14 => self.any(),
            _ => self.add(),
        }
    }

    // The list in memory.

    /// The list in lent words, of which there are as many as needed or more. Which number a variable has
    /// says nothing about when it was made.
    pub fn memory(mut self, junk: &Junk) -> Memory {
        if self.rng().chance(50) {
            self.shuffle_variables();
        }
        let length = self.rng().pick(&[NODE_STORAGE, NODE_STORAGE, NODE_STORAGE + 1, 13_000, 20_480]);
        let words = junk.words(self.sorts.rng, length);
        let nodes = self.nodes_laid_out(words);
        let count = self.variable_count();
        let length = count + self.rng().pick(&[0, 0, 1, 2, 17, 600]);
        let mut bindings = junk.words(self.sorts.rng, length);
        bindings[..count].copy_from_slice(&self.bindings);
        let (node_count, node_entry_count) = (self.rows.len(), self.entries.len());
        let memory = self.sorts.memory(junk);
        Memory { nodes, node_count, node_entry_count, bindings, variable_count: count, ..memory }
    }

    fn nodes_laid_out(&self, mut words: Vec<u16>) -> Vec<u16> {
        for (row, words) in self.rows.iter().zip(words.chunks_exact_mut(ROW)) {
            put_row(words, *row);
        }
        words[NODE_ENTRIES_AT..][..self.entries.len()].copy_from_slice(&self.entries);
        words
    }

    fn shuffle_variables(&mut self) {
        let mut order: Vec<usize> = (0..self.variable_count()).collect();
        for index in (1..order.len()).rev() {
            let other = self.rng().between(0, index);
            order.swap(index, other);
        }
        let bindings = self.bindings.clone();
        for (variable, &number) in order.iter().enumerate() {
            self.bindings[number] = bindings[variable];
        }
        for row in self.rows.iter_mut().filter(|row| row.kind == kind::VARIABLE) {
            row.part = order[usize::from(row.part)] as u16;
        }
    }
}
