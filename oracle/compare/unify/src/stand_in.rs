//! A stand-in for the port's library where it is not there, and its wrong variants. It has the port's
//! shape, a trail that is undone backwards, and is not the model; the checks are those of `lists`.

use common::guard::GUARD;
use lists::checks;
use lists::memory::*;
use lists::question::Question;

use crate::compare::Lent;
use crate::fault::Fault;

/// Asks the stand-in, or the variant that has a fault. The lists are read from `memory`, which holds the same words.
pub fn ask(fault: Option<Fault>, lent: &mut Lent, memory: &Memory, lhs: u16, rhs: u16) -> u64 {
    let bindings = GUARD..lent.bindings.len() - GUARD;
    let answer = answer(fault, memory, &mut lent.bindings[bindings.clone()], lhs, rhs);
    let refused = (1..256).contains(&answer);
    match fault {
        Some(Fault::WordAfterRefusal) if refused => lent.bindings[bindings.end - 1] ^= 1,
        Some(Fault::WordPastVariables) if answer == YES => lent.bindings[bindings.start + memory.variable_count] ^= 1,
        Some(Fault::SortWord) if !refused => lent.sorts[GUARD + 1] ^= 1,
        Some(Fault::NodeWord) => *lent.nodes.iter_mut().rev().nth(GUARD).expect("there are guard words") ^= 1,
        Some(Fault::GuardBeforeBindings) => lent.bindings[bindings.start - 1] ^= 1,
        Some(Fault::GuardAfterNodes) => {
            *lent.nodes.iter_mut().rev().nth(GUARD - 1).expect("there are guard words") ^= 1
        }
        _ => {}
    }
    answer
}

const YES: u64 = 256;

/// No answer of the port: a wrong variant goes round in circles.
const ENDLESS: u64 = u64::MAX;

/// More than any question that is asked takes; only wrong variants take more.
const MOST_STEPS: usize = 1_000_000;
const DEEPEST: usize = 10_000;

fn answer(fault: Option<Fault>, memory: &Memory, bindings: &mut [u16], lhs: u16, rhs: u16) -> u64 {
    if let Some(code) = refusal(fault, memory, lhs, rhs) {
        return code.into();
    }
    let mut call = Call { fault, memory, bindings, trail: Vec::new(), steps: 0, depth: 0 };
    let answer = call.unify(lhs, rhs);
    if call.endless() {
        return ENDLESS;
    }
    if !answer {
        call.undo();
    }
    if answer && fault == Some(Fault::GivenShortened) {
        call.shorten();
    }
    if answer { YES } else { 0 }
}

fn refusal(fault: Option<Fault>, memory: &Memory, lhs: u16, rhs: u16) -> Option<u16> {
    let first_failing = |memory: &Memory| checks::first_failing(memory, Question::Unify(lhs, rhs));
    let full = match fault {
        Some(Fault::SortCeiling) => memory.sort_count == MAX_SORTS,
        Some(Fault::EntryCeiling) => memory.entry_count == MAX_ENTRIES,
        Some(Fault::NodeCeiling) => memory.node_count == MAX_NODES,
        Some(Fault::NodeEntryCeiling) => memory.node_entry_count == MAX_NODE_ENTRIES,
        Some(Fault::VariableCeiling) => memory.variable_count == MAX_VARIABLES,
        _ => false,
    };
    if full {
        return Some(1);
    }
    let code = match fault {
        Some(Fault::VariablesOfSlice) => {
            first_failing(&Memory { variable_count: memory.bindings.len(), ..memory.clone() })
        }
        _ => first_failing(memory),
    };
    let short = memory.sorts.len() < SORT_STORAGE || memory.nodes.len() < NODE_STORAGE;
    match (fault, code) {
        (Some(Fault::CycleAccepted), Some(7)) => None,
        (Some(Fault::FourteenFirst), Some(12)) if short => Some(14),
        _ => code,
    }
}

struct Call<'a> {
    fault: Option<Fault>,
    memory: &'a Memory,
    bindings: &'a mut [u16],
    /// The variables bound by this call, in order.
    trail: Vec<u16>,
    steps: usize,
    depth: usize,
}

impl Call<'_> {
    fn has(&self, fault: Fault) -> bool {
        self.fault == Some(fault)
    }

    fn endless(&self) -> bool {
        self.steps > MOST_STEPS
    }

    fn row(&self, place: u16) -> Row {
        match Place::of(place) {
            Place::Sort(sort) => self.memory.sort(sort.into()),
            Place::Node(node) => self.memory.node(node.into()),
        }
    }

    fn argument(&self, place: u16, row: Row, index: usize) -> u16 {
        match Place::of(place) {
            Place::Sort(_) => self.memory.sort_arguments(row)[index],
            Place::Node(_) => self.memory.node_arguments(row)[index],
        }
    }

    /// The variable of a place, if it is a node of a free one.
    fn free(&self, place: u16) -> Option<u16> {
        let row = self.row(place);
        (row.kind == kind::VARIABLE && self.bindings[usize::from(row.part)] == FREE).then_some(row.part)
    }

    fn shallow_normalize(&mut self, mut place: u16) -> u16 {
        loop {
            self.steps += 1;
            let row = self.row(place);
            if row.kind != kind::VARIABLE || self.bindings[usize::from(row.part)] == FREE || self.endless() {
                return place;
            }
            place = self.bindings[usize::from(row.part)];
            if self.has(Fault::OneBindingFollowed) {
                return place;
            }
        }
    }

    fn unify(&mut self, lhs: u16, rhs: u16) -> bool {
        let (left, right) = (self.shallow_normalize(lhs), self.shallow_normalize(rhs));
        if left == right || self.endless() {
            return true;
        }
        let (left_value, right_value) = if self.has(Fault::BoundToPlace) { (lhs, rhs) } else { (left, right) };
        match (self.free(left), self.free(right)) {
            (Some(one), Some(other)) if one == other && !self.has(Fault::TwinsBound) => !self.has(Fault::TwinsDiffer),
            (_, Some(variable)) if self.has(Fault::Exchanged) => self.bind(variable, left_value),
            (Some(variable), _) => self.bind(variable, right_value),
            (None, Some(variable)) => self.bind(variable, left_value),
            (None, None) => self.deeper(|call| call.unify_rows(left, right)),
        }
    }

    /// Two ends that are not free.
    fn unify_rows(&mut self, left: u16, right: u16) -> bool {
        let (left_row, right_row) = (self.row(left), self.row(right));
        let sorts = [left, right].map(|place| place < FIRST_NODE);
        if sorts == [true, true] || (sorts[0] != sorts[1] && self.has(Fault::SortAgainstNode)) {
            return false;
        }
        let containers = left_row.is_container() && right_row.is_container();
        if containers && (left_row.kind == right_row.kind || self.has(Fault::OperatorsNotCompared)) {
            return self.unify(left_row.part, right_row.part);
        }
        if left_row.kind != kind::FUNCTION || right_row.kind != kind::FUNCTION {
            return false;
        }
        if left_row.count != right_row.count && !self.has(Fault::CountsNotCompared) {
            return false;
        }
        let mut parts: Vec<(u16, u16)> = (0..usize::from(left_row.count.min(right_row.count)))
            .map(|index| (self.argument(left, left_row, index), self.argument(right, right_row, index)))
            .collect();
        if self.has(Fault::ArgumentsBackwards) {
            parts.reverse();
        }
        let ranges = (left_row.part, right_row.part);
        parts.insert(if self.has(Fault::RangeFirst) { 0 } else { parts.len() }, ranges);
        parts.into_iter().all(|(left, right)| self.unify(left, right))
    }

    fn bind(&mut self, variable: u16, place: u16) -> bool {
        if !self.has(Fault::OccursDropped) && self.occurs(variable, place) && !self.is_twin(variable, place) {
            return false;
        }
        self.bindings[usize::from(variable)] = place;
        self.trail.push(variable);
        true
    }

    /// Only where two nodes of one variable are bound to each other.
    fn is_twin(&self, variable: u16, place: u16) -> bool {
        self.has(Fault::TwinsBound) && self.free(place) == Some(variable)
    }

    fn occurs(&mut self, variable: u16, place: u16) -> bool {
        let end = if self.has(Fault::OccursBlind) { place } else { self.shallow_normalize(place) };
        self.steps += 1;
        let row = self.row(end);
        if end < FIRST_NODE || self.endless() {
            return false;
        }
        match row.kind {
            kind::VARIABLE => row.part == variable,
            kind::FUNCTION => {
                (0..usize::from(row.count)).any(|index| {
                    let argument = self.argument(end, row, index);
                    self.deeper(|call| call.occurs(variable, argument))
                }) || self.deeper(|call| call.occurs(variable, row.part))
            }
            _ => self.deeper(|call| call.occurs(variable, row.part)),
        }
    }

    /// One call deeper; too deep is endless.
    fn deeper(&mut self, call: impl FnOnce(&mut Self) -> bool) -> bool {
        if self.depth == DEEPEST {
            self.steps = MOST_STEPS + 1;
            return false;
        }
        self.depth += 1;
        let answer = call(self);
        self.depth -= 1;
        answer
    }

    fn undo(&mut self) {
        let kept = match self.fault {
            Some(Fault::LeftAfterNo) => self.trail.len(),
            Some(Fault::OneLeftAfterNo) => 1.min(self.trail.len()),
            _ => 0,
        };
        for variable in self.trail.drain(kept..).rev() {
            self.bindings[usize::from(variable)] = FREE;
        }
    }

    /// Replaces the first binding that leads to a bound variable by its end.
    fn shorten(&mut self) {
        for variable in 0..self.memory.variable_count {
            let place = self.bindings[variable];
            if place != FREE && self.shallow_normalize(place) != place {
                self.bindings[variable] = self.shallow_normalize(place);
                return;
            }
        }
    }
}
