//! The search, written a second time, over the memory form: a trail of bindings, interning by an
//! index, nodes given back after a widening. A witness beside the excerpt, and what the stand-in and its wrong
//! variants run.

use std::cmp::Ordering;
use std::iter;

use lists::index;
use lists::memory::*;
use lists::verdict::Tally;

use crate::fault::Fault;

/// Why a search ends before all is tried.
#[derive(Clone, Copy, Debug, Eq, PartialEq)]
pub enum Stop {
    /// No room for a sort: 15.
    Sorts,
    /// No room for a node: 16.
    Nodes,
    /// A wrong variant goes round in circles.
    Endless,
}

type Tried<T> = Result<T, Stop>;

/// No list that is asked takes more steps or nests deeper; only wrong variants do.
const MOST_STEPS: usize = 3_000_000;
const DEEPEST: usize = 4_000;

/// Rows and argument entries in lent words.
pub struct Storage<'a> {
    pub words: &'a mut [u16],
    pub rows: usize,
    pub entries: usize,
    entries_at: usize,
    most_rows: usize,
    most_entries: usize,
}

impl Storage<'_> {
    fn row(&self, number: u16) -> Row {
        Row::of(&self.words[ROW * usize::from(number)..][..ROW])
    }

    fn arguments(&self, row: Row) -> &[u16] {
        &self.words[self.entries_at + usize::from(row.start)..][..usize::from(row.count)]
    }

    /// Whether a row has this kind and these parts.
    fn says(&self, number: u16, kind: u16, part: u16, arguments: &[u16]) -> bool {
        let row = self.row(number);
        row.kind == kind && row.part == part && (kind != kind::FUNCTION || self.arguments(row) == arguments)
    }

    /// Appends a row, if there is room.
    fn push(&mut self, kind: u16, part: u16, arguments: &[u16], leave_unused: bool) -> Option<u16> {
        if self.rows >= self.most_rows || self.entries + arguments.len() > self.most_entries {
            return None;
        }
        let start = if kind == kind::FUNCTION { self.entries as u16 } else { 0 };
        let row = Row { kind, part, start, count: arguments.len() as u16 };
        let used = if leave_unused && kind != kind::FUNCTION { 2 } else { ROW };
        self.words[ROW * self.rows..][..used].copy_from_slice(&row.words()[..used]);
        self.words[self.entries_at + self.entries..][..arguments.len()].copy_from_slice(arguments);
        self.rows += 1;
        self.entries += arguments.len();
        Some(self.rows as u16 - 1)
    }
}

/// The best leaf so far.
#[derive(Clone, Debug)]
pub struct Candidate {
    pub measure: Vec<u16>,
    /// The sort of each expression.
    pub sorts: Vec<u16>,
    /// Expression and position in its disjunction, in the order of the constraints.
    pub choices: Vec<(u16, u16)>,
    /// Another leaf has the same measure.
    pub duplicate: bool,
}

/// What comes after a widening or a try.
#[derive(Clone, Copy)]
enum Next {
    Constraint(usize),
    /// A source of the Join that is constraint `join`.
    Source {
        join: usize,
        source: usize,
    },
}

pub struct Search<'a> {
    fault: Option<Fault>,
    /// The lists at entry; sorts, nodes and bindings are in the lent words.
    memory: &'a Memory,
    pub sorts: Storage<'a>,
    pub nodes: Storage<'a>,
    pub bindings: &'a mut [u16],
    index: &'a mut [u16],
    trail: Vec<u16>,
    measure: Vec<u16>,
    choices: Vec<(u16, u16)>,
    pub best: Option<Candidate>,
    pub tally: Tally,
    /// The first binding that was made.
    pub first_binding: Option<(u16, u16)>,
    steps: usize,
    depth: usize,
}

impl<'a> Search<'a> {
    /// Begins on a list that no check refuses. The ceilings are those of `memory`.
    pub fn new(
        fault: Option<Fault>,
        memory: &'a Memory,
        sorts: &'a mut [u16],
        nodes: &'a mut [u16],
        bindings: &'a mut [u16],
        index: &'a mut [u16],
    ) -> Search<'a> {
        let less = |of: Fault| usize::from(fault == Some(of));
        let ceilings = memory.ceilings;
        let most_entries = match fault {
            Some(Fault::EntryRoomOfSlice) => sorts.len() - ENTRIES_AT,
            _ => ceilings.entries - less(Fault::EntryRoom),
        };
        let mut search = Search {
            fault,
            memory,
            sorts: Storage {
                words: sorts,
                rows: memory.sort_count,
                entries: memory.entry_count,
                entries_at: ENTRIES_AT,
                most_rows: ceilings.sorts - less(Fault::SortRoom),
                most_entries,
            },
            nodes: Storage {
                words: nodes,
                rows: memory.node_count,
                entries: memory.node_entry_count,
                entries_at: NODE_ENTRIES_AT,
                most_rows: ceilings.nodes - less(Fault::NodeRoom),
                most_entries: ceilings.node_entries - less(Fault::NodeEntryRoom),
            },
            bindings,
            index,
            trail: Vec::new(),
            measure: Vec::new(),
            choices: Vec::new(),
            best: None,
            tally: Tally::default(),
            first_binding: None,
            steps: 0,
            depth: 0,
        };
        search.fill_index();
        search
    }

    /// The whole search; whether a leaf was found is told by `best`.
    pub fn run(&mut self) -> Result<(), Stop> {
        let found = self.solve(0);
        if found.is_err() && !self.has(Fault::BindingsLeftAfterRoom) {
            self.undo(0);
        }
        found.map(|_| ())
    }

    fn has(&self, fault: Fault) -> bool {
        self.fault == Some(fault)
    }

    fn step(&mut self) -> Tried<()> {
        self.steps += 1;
        if self.steps > MOST_STEPS { Err(Stop::Endless) } else { Ok(()) }
    }

    /// One call deeper.
    fn deeper<T>(&mut self, call: impl FnOnce(&mut Self) -> Tried<T>) -> Tried<T> {
        if self.depth == DEEPEST {
            return Err(Stop::Endless);
        }
        self.depth += 1;
        let answer = call(self);
        self.depth -= 1;
        answer
    }

    // Constraints.

    fn go(&mut self, next: Next) -> Tried<bool> {
        match next {
            Next::Constraint(index) => self.solve(index),
            Next::Source { join, source } => self.solve_sources(join, source),
        }
    }

    fn solve(&mut self, index: usize) -> Tried<bool> {
        self.step()?;
        if self.dominated() {
            self.tally.dropped += 1;
            return Ok(self.has(Fault::PrunedIsFound));
        }
        let count = match self.has(Fault::FirstConstraintOnly) {
            true => self.memory.constraint_count.min(1),
            false => self.memory.constraint_count,
        };
        if index == count {
            return self.leaf();
        }
        let next = Next::Constraint(index + 1);
        let memory = self.memory;
        match *memory.constraint(index) {
            [constraint::SUB, lhs, rhs, ..] => self.solve_widening(lhs, rhs, next),
            [constraint::LIT, place, kind, ..] => self.solve_literal(place, kind, next),
            [constraint::DISJUNCTION, expression, place, start, count] => {
                self.solve_disjunction(expression, place, start, count, next)
            }
            [constraint::COMPREHENSION, body, node, element, _] => self.solve_comprehension(body, node, element, next),
            [constraint::JOIN, target, ..] => self.solve_join(index, target),
            _ => unreachable!("an accepted list has no other constraints"),
        }
    }

    fn dominated(&self) -> bool {
        let Some(best) = &self.best else { return false };
        let order = self.measure[..].cmp(&best.measure[..self.measure.len()]);
        match self.fault {
            Some(Fault::NothingPruned) => false,
            Some(Fault::PrunedOnEqual) => order != Ordering::Less,
            _ => order == Ordering::Greater,
        }
    }

    /// Unifies, and where that is a yes goes on with one more component; then takes the bindings back.
    fn attempt(&mut self, lhs: u16, rhs: u16, component: Option<u16>, next: Next) -> Tried<bool> {
        let mark = self.trail.len();
        let mut found = false;
        if self.unify(lhs, rhs)? {
            self.measure.extend(component);
            found = self.go(next)?;
            self.measure.truncate(self.measure.len() - usize::from(component.is_some()));
        }
        self.undo(mark);
        Ok(found)
    }

    fn solve_widening(&mut self, lhs: u16, rhs: u16, next: Next) -> Tried<bool> {
        let mut found = false;
        if !self.has(Fault::EqualitySkipped) {
            found = self.attempt(lhs, rhs, Some(0), next)?;
        }
        if found && !self.has(Fault::WideningGoesOn) {
            return Ok(true);
        }
        let nodes_before = (self.nodes.rows, self.nodes.entries);
        let Some(tries) = self.tries(lhs, rhs)? else { return Ok(found) };
        if self.has(Fault::NodesGivenBackFirst) {
            (self.nodes.rows, self.nodes.entries) = nodes_before;
        }
        let first = u16::from(!self.has(Fault::ComponentsFromZero));
        for (distance, (lhs, rhs)) in tries.into_iter().enumerate() {
            found |= self.attempt(lhs, rhs, Some(first + distance as u16), next)?;
            if found && !self.has(Fault::WideningGoesOn) {
                break;
            }
        }
        if !self.has(Fault::NodesNotGivenBack) {
            (self.nodes.rows, self.nodes.entries) = nodes_before;
        }
        Ok(found)
    }

    /// The wider sorts of the left side against the right one, or the left side against the narrower sorts of the
    /// right one. None if neither has a list.
    fn tries(&mut self, lhs: u16, rhs: u16) -> Tried<Option<Vec<(u16, u16)>>> {
        if self.has(Fault::NarrowerFirst)
            && let Some(narrower) = self.list(rhs, false)?
        {
            return Ok(Some(narrower.into_iter().map(|narrower| (lhs, narrower)).collect()));
        }
        let mut tries = Vec::new();
        let wider = self.list(lhs, true)?;
        if let Some(wider) = &wider {
            tries.extend(wider.iter().map(|&wider| (wider, rhs)));
            if !self.has(Fault::RightAfterLeft) {
                return Ok(Some(tries));
            }
        }
        match self.list(rhs, false)? {
            None => Ok(wider.map(|_| tries)),
            Some(narrower) => {
                tries.extend(narrower.into_iter().map(|narrower| (lhs, narrower)));
                Ok(Some(tries))
            }
        }
    }

    /// The wider or narrower sorts of a place, nearest first.
    fn list(&mut self, place: u16, up: bool) -> Tried<Option<Vec<u16>>> {
        let mut list = self.related(place, up)?;
        let reversed = if up { Fault::WiderReversed } else { Fault::NarrowerReversed };
        if self.has(reversed) {
            list.iter_mut().for_each(|list| list.reverse());
        }
        Ok(list.filter(|list| !list.is_empty() || !self.has(Fault::EmptyIsNoList)))
    }

    fn solve_literal(&mut self, place: u16, kind: u16, next: Next) -> Tried<bool> {
        let end = self.follow(place)?;
        let natural = kind == literal::NATURAL && !self.has(Fault::ZeroIsPos);
        let more = u16::from(self.has(Fault::GeneralityPlusOne));
        if self.variable_at(end).is_none() {
            let number = end < FIRST_NODE && (kind::POS..=kind::REAL).contains(&end);
            if !number || (natural && end == kind::POS) {
                return Ok(false);
            }
            self.measure.push(end - kind::POS + more);
            let found = self.go(next)?;
            self.measure.pop();
            return Ok(found);
        }
        let first = if natural || self.has(Fault::SevenIsNat) { kind::NAT } else { kind::POS };
        for number in first..=kind::REAL {
            if self.attempt(place, number, Some(number - kind::POS + more), next)? {
                return Ok(true);
            }
        }
        Ok(false)
    }

    fn solve_disjunction(&mut self, expression: u16, place: u16, start: u16, count: u16, next: Next) -> Tried<bool> {
        let mut found = false;
        for position in 0..count {
            let overload = self.memory.overload(usize::from(start + position))[2];
            let said = if self.has(Fault::PositionInList) { start + position } else { position };
            self.choices.push((expression, said));
            found |= self.attempt(place, overload, None, next)?;
            self.choices.pop();
            if found && self.has(Fault::DisjunctionStops) {
                break;
            }
        }
        Ok(found)
    }

    fn solve_comprehension(&mut self, body: u16, node: u16, element: u16, next: Next) -> Tried<bool> {
        let mut readings = [(kind::BOOL, kind::SET), (kind::NAT, kind::BAG), (kind::POS, kind::BAG)];
        if self.has(Fault::ReadingsOrder) {
            readings.swap(0, 1);
        }
        let count = if self.has(Fault::TwoReadings) { 2 } else { readings.len() };
        let mut found = false;
        for (sort, container) in readings.into_iter().take(count) {
            let mark = self.trail.len();
            let late = self.has(Fault::ContainerAfterBody);
            let early = if late { None } else { Some(self.intern(container, element, &[])?) };
            if self.unify(body, sort)? {
                let made = match early {
                    Some(made) => made,
                    None => self.intern(container, element, &[])?,
                };
                found |= self.unify(node, made)? && self.go(next)?;
            }
            self.undo(mark);
        }
        Ok(found)
    }

    // Joins.

    fn sources(&self, join: usize) -> &'a [u16] {
        let row = self.memory.constraint(join);
        &self.memory.sources[usize::from(row[2])..][..usize::from(row[3])]
    }

    fn solve_join(&mut self, join: usize, target: u16) -> Tried<bool> {
        let mut found = false;
        if !self.has(Fault::JoinFirstWaySkipped) {
            match self.agreed(join)? {
                None if self.has(Fault::JoinGivesUp) => return Ok(false),
                None => {}
                Some((sort, components)) => {
                    found = self.solve_agreed(target, sort, &components, Next::Constraint(join + 1))?;
                }
            }
        }
        if found && !self.has(Fault::JoinSecondWayToo) {
            return Ok(true);
        }
        Ok(self.solve_sources(join, 0)? || found)
    }

    fn solve_agreed(&mut self, target: u16, sort: u16, components: &[u16], next: Next) -> Tried<bool> {
        let mark = self.trail.len();
        let mut found = false;
        if self.unify(target, sort)? {
            self.measure.extend(components);
            found = self.go(next)?;
            self.measure.truncate(self.measure.len() - components.len());
        }
        if !(found && self.has(Fault::JoinLeftOpen)) {
            self.undo(mark);
        }
        Ok(found)
    }

    /// The join of the sources and their head distances to it, if all resolve and each is materializable into it.
    fn agreed(&mut self, join: usize) -> Tried<Option<(u16, Vec<u16>)>> {
        let mut resolved = Vec::new();
        let mut open = false;
        for &source in self.sources(join) {
            match self.resolve(source, None)? {
                Some(sort) => resolved.push(sort),
                None if self.has(Fault::JoinResolvesAll) => open = true,
                None => return Ok(None),
            }
        }
        if open {
            return Ok(None);
        }
        let mut order = resolved.clone();
        if self.has(Fault::JoinFromRight) {
            order.reverse();
        }
        let mut all = order[0];
        for &next in &order[1..] {
            match self.bound(true, all, next)? {
                Some(joined) => all = joined,
                None => return Ok(None),
            }
        }
        let fine = resolved.iter().all(|&source| self.materializable(source, all));
        if !fine && !self.has(Fault::JoinNotMaterializable) {
            return Ok(None);
        }
        let components = resolved.iter().map(|&source| {
            let (head, interior) = self.distance(source, all).unwrap_or((0, 0));
            if self.has(Fault::InteriorCounted) { head + interior } else { head }
        });
        Ok(Some((all, components.collect())))
    }

    /// The sources from one on, as widenings.
    fn solve_sources(&mut self, join: usize, source: usize) -> Tried<bool> {
        self.step()?;
        let sources = self.sources(join);
        if source == sources.len() {
            return self.solve(join + 1);
        }
        if source > 0 && self.has(Fault::PrunedBetweenSources) && self.dominated() {
            return Ok(false);
        }
        let target = self.memory.constraint(join)[1];
        let place =
            if self.has(Fault::SourcesBackwards) { sources[sources.len() - 1 - source] } else { sources[source] };
        self.solve_widening(place, target, Next::Source { join, source: source + 1 })
    }

    // Leaves.

    fn leaf(&mut self) -> Tried<bool> {
        let order = match &self.best {
            None => Ordering::Less,
            Some(best) => self.compared(&best.measure),
        };
        match order {
            Ordering::Less if self.has(Fault::FirstLeafStays) && self.best.is_some() => {}
            Ordering::Less => {
                let sorts = self.extract()?;
                let marked = self.best.as_ref().is_some_and(|best| best.duplicate) && self.has(Fault::MarkStays);
                self.best = Some(Candidate {
                    measure: self.measure.clone(),
                    sorts,
                    choices: self.choices.clone(),
                    duplicate: marked,
                });
            }
            Ordering::Equal => {
                if self.has(Fault::TieMakesSorts) {
                    self.extract()?;
                }
                if let Some(best) = &mut self.best {
                    best.duplicate |= self.fault != Some(Fault::TieNotMarked);
                }
            }
            Ordering::Greater => {}
        }
        Ok(true)
    }

    fn compared(&self, best: &[u16]) -> Ordering {
        match self.fault {
            Some(Fault::ComparedFromBack) => self.measure.iter().rev().cmp(best.iter().rev()),
            Some(Fault::ComponentsSummed) => self.measure.iter().sum::<u16>().cmp(&best.iter().sum()),
            _ => self.measure[..].cmp(best),
        }
    }

    fn extract(&mut self) -> Tried<Vec<u16>> {
        let memory = self.memory;
        let mut sorts = Vec::with_capacity(memory.expr_count);
        for &place in &memory.exprs[..memory.expr_count] {
            let sort = self.resolve(place, Some(memory.default))?;
            sorts.push(sort.expect("with a default every place has a sort"));
        }
        Ok(sorts)
    }

    // Places.

    fn row(&self, place: u16) -> Row {
        match Place::of(place) {
            Place::Sort(sort) => self.sorts.row(sort),
            Place::Node(node) => self.nodes.row(node),
        }
    }

    fn argument(&self, place: u16, row: Row, index: u16) -> u16 {
        let storage = if place < FIRST_NODE { &self.sorts } else { &self.nodes };
        storage.arguments(row)[usize::from(index)]
    }

    /// The variable of a place, if it is a node of one. At an end it is free.
    fn variable_at(&self, place: u16) -> Option<u16> {
        (place >= FIRST_NODE).then(|| self.row(place)).filter(|row| row.kind == kind::VARIABLE).map(|row| row.part)
    }

    fn follow(&mut self, mut place: u16) -> Tried<u16> {
        while let Some(variable) = self.variable_at(place) {
            self.step()?;
            match self.bindings[usize::from(variable)] {
                FREE => break,
                next => place = next,
            }
        }
        Ok(place)
    }

    fn unify(&mut self, lhs: u16, rhs: u16) -> Tried<bool> {
        self.step()?;
        let (left, right) = (self.follow(lhs)?, self.follow(rhs)?);
        if left == right {
            return Ok(true);
        }
        match (self.variable_at(left), self.variable_at(right)) {
            (Some(one), Some(other)) if one == other => Ok(true),
            (Some(variable), _) => self.bind(variable, right),
            (None, Some(variable)) => self.bind(variable, left),
            (None, None) => self.deeper(|search| search.unify_parts(left, right)),
        }
    }

    fn unify_parts(&mut self, left: u16, right: u16) -> Tried<bool> {
        let (left_row, right_row) = (self.row(left), self.row(right));
        if left < FIRST_NODE && right < FIRST_NODE || left_row.kind != right_row.kind {
            return Ok(false);
        }
        if left_row.kind == kind::FUNCTION {
            if left_row.count != right_row.count {
                return Ok(false);
            }
            for index in 0..left_row.count {
                let (one, other) = (self.argument(left, left_row, index), self.argument(right, right_row, index));
                if !self.unify(one, other)? {
                    return Ok(false);
                }
            }
        }
        self.unify(left_row.part, right_row.part)
    }

    fn bind(&mut self, variable: u16, end: u16) -> Tried<bool> {
        if !self.has(Fault::OccursDropped) && self.occurs(variable, end)? {
            return Ok(false);
        }
        self.bindings[usize::from(variable)] = end;
        self.trail.push(variable);
        self.first_binding.get_or_insert((variable, end));
        Ok(true)
    }

    fn occurs(&mut self, variable: u16, place: u16) -> Tried<bool> {
        let end = self.follow(place)?;
        if end < FIRST_NODE {
            return Ok(false);
        }
        let row = self.row(end);
        if row.kind == kind::VARIABLE {
            return Ok(row.part == variable);
        }
        let arguments = if row.kind == kind::FUNCTION { row.count } else { 0 };
        for index in 0..arguments {
            let argument = self.argument(end, row, index);
            if self.deeper(|search| search.occurs(variable, argument))? {
                return Ok(true);
            }
        }
        self.deeper(|search| search.occurs(variable, row.part))
    }

    fn undo(&mut self, mark: usize) {
        let kept = match self.has(Fault::TrailEntryLeft) {
            true => self.trail.len().min(mark + 1),
            false => mark,
        };
        for variable in self.trail.drain(kept..).rev() {
            self.bindings[usize::from(variable)] = FREE;
        }
    }

    /// The sort of a place; a free variable stands for the default, or there is none.
    fn resolve(&mut self, place: u16, default: Option<u16>) -> Tried<Option<u16>> {
        let end = self.follow(place)?;
        if end < FIRST_NODE {
            return Ok(Some(end));
        }
        let row = self.row(end);
        if row.kind == kind::VARIABLE {
            return Ok(default);
        }
        let inner = match self.has(Fault::DefaultOnTop) {
            true => default.map(|_| kind::BOOL),
            false => default,
        };
        let mut arguments = Vec::new();
        let count = if row.kind == kind::FUNCTION { row.count } else { 0 };
        for index in 0..count {
            let argument = self.argument(end, row, index);
            match self.deeper(|search| search.resolve(argument, inner))? {
                Some(sort) => arguments.push(sort),
                None => return Ok(None),
            }
        }
        match self.deeper(|search| search.resolve(row.part, inner))? {
            Some(part) => self.intern(row.kind, part, &arguments).map(Some),
            None => Ok(None),
        }
    }

    /// The strictly wider or narrower sorts of a place, as places; none where a variable is free.
    fn related(&mut self, place: u16, up: bool) -> Tried<Option<Vec<u16>>> {
        let end = self.follow(place)?;
        let row = self.row(end);
        let is_sort = end < FIRST_NODE;
        match row.kind {
            kind::VARIABLE if !is_sort => Ok(None),
            kind::POS..=kind::REAL => {
                let numbers: Vec<u16> = match up {
                    true => (row.kind + 1..=kind::REAL).collect(),
                    false => (kind::POS..row.kind).rev().collect(),
                };
                if self.has(Fault::ResolvedNodesCount) {
                    for &number in &numbers {
                        self.push_node(kind::LIST, number, &[])?;
                    }
                }
                Ok(Some(numbers))
            }
            kind::LIST..=kind::FBAG => match related_container(row.kind, up) {
                None => Ok(Some(Vec::new())),
                Some(container) if is_sort => Ok(Some(vec![self.intern(container, row.part, &[])?])),
                Some(container) => Ok(Some(vec![self.push_node(container, row.part, &[])?])),
            },
            kind::FUNCTION => {
                let Some(ranges) = self.deeper(|search| search.related(row.part, up))? else { return Ok(None) };
                let arguments: Vec<u16> = (0..row.count).map(|index| self.argument(end, row, index)).collect();
                let mut functions = Vec::with_capacity(ranges.len());
                for range in ranges {
                    functions.push(self.push_node(kind::FUNCTION, range, &arguments)?);
                }
                Ok(Some(functions))
            }
            _ => Ok(Some(Vec::new())),
        }
    }

    fn push_node(&mut self, kind: u16, part: u16, arguments: &[u16]) -> Tried<u16> {
        let pushed = self.nodes.push(kind, part, arguments, false);
        self.tally.nodes_made += 1;
        self.tally.node_entries_made += arguments.len();
        let node = pushed.ok_or(Stop::Nodes)?;
        let (nodes, entries) =
            (self.nodes.rows - self.memory.node_count, self.nodes.entries - self.memory.node_entry_count);
        self.tally.nodes_peak = self.tally.nodes_peak.max(nodes);
        self.tally.node_entries_peak = self.tally.node_entries_peak.max(entries);
        Ok(Place::Node(node).word())
    }

    // Sorts.

    fn intern(&mut self, kind: u16, part: u16, arguments: &[u16]) -> Tried<u16> {
        if let Some(number) = self.look(kind, part, arguments) {
            return Ok(number);
        }
        let leave_unused = self.has(Fault::UnusedWordsLeft);
        let number = self.sorts.push(kind, part, arguments, leave_unused).ok_or(Stop::Sorts)?;
        if !self.has(Fault::IndexNewMissing) {
            self.enter(number, index::place(kind, part, arguments));
        }
        Ok(number)
    }

    // The index: at a slot a sort's number plus one, or 0.

    fn fill_index(&mut self) {
        let memory = self.memory;
        let words = if self.has(Fault::IndexToCeiling) { INDEX } else { self.index.len() };
        if !self.has(Fault::IndexNotClearedFirst) {
            self.index[..words].fill(0);
        }
        let missing = usize::from(self.has(Fault::IndexLastGivenMissing));
        for number in 0..memory.sort_count - missing {
            self.enter(number as u16, index::place_of(&memory.shape(number)));
        }
    }

    /// The slot after one; none where a wrong walk ends.
    fn next_slot(&self, slot: usize) -> Option<usize> {
        match index::next(slot) {
            0 if self.has(Fault::IndexNotRound) => None,
            next => Some(next),
        }
    }

    /// Slots from a place on.
    fn walk(&self, place: usize, most: usize) -> impl Iterator<Item = usize> {
        iter::successors(Some(place), |&slot| self.next_slot(slot)).take(most)
    }

    /// Puts a sort into the first empty slot from a place on.
    fn enter(&mut self, number: u16, place: usize) {
        let overwrites = self.has(Fault::IndexClashOverwrites);
        let free = self.walk(place, INDEX).find(|&slot| self.index[slot] == 0 || overwrites);
        if let Some(slot) = free {
            self.index[slot] = number + 1;
        }
    }

    /// The sort that is found from its place on, up to the first empty slot.
    fn look(&self, kind: u16, part: u16, arguments: &[u16]) -> Option<u16> {
        let place = index::place(kind, part, arguments);
        let most = if self.has(Fault::IndexLooksOnce) { 1 } else { INDEX };
        let words = self.walk(place, most).map(|slot| self.index[slot]).take_while(|&word| word > 0);
        let sorts = words.map(|word| word - 1).filter(|&number| usize::from(number) < self.sorts.rows);
        let taken = |number: u16| self.has(Fault::IndexFirstTaken) || self.sorts.says(number, kind, part, arguments);
        sorts.into_iter().find(|&number| taken(number))
    }

    /// The join (up) or the meet of two sorts.
    fn bound(&mut self, up: bool, lhs: u16, rhs: u16) -> Tried<Option<u16>> {
        self.step()?;
        if lhs == rhs {
            return Ok(Some(lhs));
        }
        let (left, right) = (self.sorts.row(lhs), self.sorts.row(rhs));
        let numbers = kind::POS..=kind::REAL;
        if numbers.contains(&left.kind) && numbers.contains(&right.kind) {
            return Ok(Some(if up { lhs.max(rhs) } else { lhs.min(rhs) }));
        }
        if left.is_container() && right.is_container() && family(left.kind) == family(right.kind) {
            let container = match (left.kind == right.kind, up) {
                (true, _) => left.kind,
                (false, true) => family(left.kind),
                (false, false) => family(left.kind) + 1,
            };
            return match self.bound(up, left.part, right.part)? {
                Some(part) => self.intern(container, part, &[]).map(Some),
                None => Ok(None),
            };
        }
        if left.kind != kind::FUNCTION || right.kind != kind::FUNCTION || left.count != right.count {
            return Ok(None);
        }
        let mut arguments = Vec::new();
        for index in 0..left.count {
            let (one, other) = (self.argument(lhs, left, index), self.argument(rhs, right, index));
            match self.bound(!up, one, other)? {
                Some(argument) => arguments.push(argument),
                None => return Ok(None),
            }
        }
        match self.bound(up, left.part, right.part)? {
            Some(range) => self.intern(kind::FUNCTION, range, &arguments).map(Some),
            None => Ok(None),
        }
    }

    fn materializable(&self, from: u16, to: u16) -> bool {
        let (low, high) = (self.sorts.row(from), self.sorts.row(to));
        match (low.kind, high.kind) {
            _ if from == to => true,
            (kind::POS..=kind::REAL, kind::POS..=kind::REAL) => from < to,
            (kind::FSET, kind::SET) | (kind::FBAG, kind::BAG) => low.part == high.part,
            (kind::FUNCTION, kind::FUNCTION) => {
                self.sorts.arguments(low) == self.sorts.arguments(high) && self.materializable(low.part, high.part)
            }
            _ => false,
        }
    }

    /// Head and interior distance, where the first sort is equal to or below the second.
    fn distance(&self, from: u16, to: u16) -> Option<(u16, u16)> {
        let (low, high) = (self.sorts.row(from), self.sorts.row(to));
        let sum = |from: u16, to: u16| self.distance(from, to).map(|(head, interior)| (head + interior).min(255));
        match (low.kind, high.kind) {
            _ if from == to => Some((0, 0)),
            (kind::POS..=kind::REAL, kind::POS..=kind::REAL) => to.checked_sub(from).map(|head| (head, 0)),
            (kind::FSET, kind::SET) | (kind::FBAG, kind::BAG) => Some((1, sum(low.part, high.part)?)),
            (kind::LIST..=kind::FBAG, _) if low.kind == high.kind => Some((0, sum(low.part, high.part)?)),
            (kind::FUNCTION, kind::FUNCTION) if low.count == high.count => {
                let mut interior = sum(low.part, high.part)?;
                for index in 0..low.count {
                    interior += sum(self.argument(to, high, index), self.argument(from, low, index))?;
                }
                Some((0, interior.min(255)))
            }
            _ => None,
        }
    }
}

/// The infinite container of the two that are one kind; other containers stand alone.
fn family(container: u16) -> u16 {
    match container {
        kind::FSET => kind::SET,
        kind::FBAG => kind::BAG,
        other => other,
    }
}

fn related_container(container: u16, up: bool) -> Option<u16> {
    match (container, up) {
        (kind::FSET | kind::FBAG, true) => Some(container - 1),
        (kind::SET | kind::BAG, false) => Some(container + 1),
        _ => None,
    }
}

#[cfg(test)]
mod tests {
    use lists::generate;
    use lists::question::Question;
    use lists::verdict::Reply;
    use lists::verdict::Verdict;
    use oracle::ask::hear;

    use super::*;
    use crate::call::Call;
    use crate::cases::Cases;
    use crate::cases::Class;
    use crate::expected::Expected;
    use crate::expected::Outcome;

    /// The search on a copy of a list, and the words of its sorts at the end.
    fn searched<T>(memory: &Memory, read: impl FnOnce(Result<(), Stop>, &mut Search) -> T) -> T {
        let (mut sorts, mut nodes) = (memory.sorts.clone(), memory.nodes.clone());
        let (mut bindings, mut index) = (memory.bindings.clone(), [0; INDEX]);
        let mut search = Search::new(None, memory, &mut sorts, &mut nodes, &mut bindings, &mut index);
        let ended = search.run();
        read(ended, &mut search)
    }

    /// What the excerpt made on the way to its answer the search made too.
    fn same_tally(call: &Call) {
        let expected = Expected::of(&call.memory).expect("the judges agree");
        if matches!(expected.outcome, Outcome::Refused(_) | Outcome::NoRoom(_)) {
            return;
        }
        searched(&call.memory, |ended, search| {
            assert_eq!(ended, Ok(()));
            let (ours, theirs) = (&search.tally, &expected.tally);
            assert_eq!(ours.nodes_made, theirs.nodes_made);
            assert_eq!(ours.node_entries_made, theirs.node_entries_made);
            assert_eq!(ours.nodes_peak, theirs.nodes_peak);
            assert_eq!(ours.node_entries_peak, theirs.node_entries_peak);
            assert_eq!(ours.dropped, theirs.dropped);
            assert_eq!(search.bindings, call.memory.bindings);
        });
    }

    #[test]
    fn makes_what_the_excerpt_makes() {
        for (class, _) in Class::ALL {
            let cases = Cases::new(class, 5);
            let heavy = matches!(class, Class::Full | Class::Large | Class::Deep | Class::Clash | Class::Again);
            let count = if heavy { 50 } else { 2_000 };
            for index in 0..count {
                same_tally(&cases.case(index).expect("there are so many").call);
            }
        }
    }

    /// Where the ceilings are lower than document 01's, which the port cannot be told, the search ends as the excerpt
    /// does.
    #[test]
    fn ends_at_small_ceilings_as_the_excerpt_does() {
        let mut seen = [0; 4];
        for index in 0..5_000 {
            let case = generate::case(generate::Class::Room, 5, 3, index).expect("a random class has no end");
            let memory = case.list.memory();
            let (heard, _) = hear(&memory, Question::Solve).expect("the builds agree");
            searched(&memory, |ended, search| match heard {
                Err(room) => {
                    let stop = if room.code() == 15 { Stop::Sorts } else { Stop::Nodes };
                    assert_eq!(ended, Err(stop));
                    seen[usize::from(stop == Stop::Nodes)] += 1;
                }
                Ok(heard) => {
                    assert_eq!(ended, Ok(()));
                    assert_eq!(search.sorts.rows, memory.sort_count + heard.new.len());
                    let Reply::Solve(verdict) = heard.reply else { panic!("another reply") };
                    let typed = search.best.as_ref().filter(|best| !best.duplicate);
                    seen[2 + usize::from(typed.is_some())] += 1;
                    match verdict {
                        Verdict::Typing { sorts, .. } => assert_eq!(typed.map(|best| &best.sorts), Some(&sorts)),
                        _ => assert!(typed.is_none()),
                    }
                }
            });
        }
        assert!(seen.iter().all(|&count| count > 50), "{seen:?}");
    }
}
