//! Unify as document 01 says it, over lists that no check refuses. Written apart from the port; it
//! takes nothing from merc.
//!
//! Both sides are followed through bindings to their ends. The same end, or two nodes of one
//! variable, is a yes that binds nothing. A free left end is bound to the right end, else a free
//! right end to the left, after the occurs check. Containers are compared by operator and part,
//! functions by the number of arguments, then argument by argument from the left, then the range.

use lists::memory::*;
use lists::verdict::End;

/// What came of a question.
#[derive(Debug)]
pub struct Outcome {
    /// The bindings after a yes; none after a no, which leaves them as they were.
    pub bindings: Option<Vec<u16>>,
    pub notes: Notes,
}

/// What happened on the way.
#[derive(Clone, Copy, Debug, Default)]
pub struct Notes {
    /// How many bindings were made, those that a no takes back included.
    pub bound: usize,
    /// The occurs check ended it.
    pub occurs: bool,
    /// Two nodes of one variable were met.
    pub twins: bool,
}

/// The outcome, or none if it takes more than `most` steps.
pub fn unify(memory: &Memory, lhs: u16, rhs: u16, most: usize) -> Option<Outcome> {
    let bindings = memory.bindings[..memory.variable_count].to_vec();
    let mut model = Model { memory, bindings, notes: Notes::default(), left: most };
    let answer = model.unify(lhs, rhs).ok()?;
    Some(Outcome { bindings: answer.then_some(model.bindings), notes: model.notes })
}

/// The steps are used up.
struct TooLong;

/// What stands at a place, be it a sort or a node.
enum Head<'a> {
    Variable(u16),
    Container(u16, u16),
    Function(&'a [u16], u16),
    Leaf,
}

struct Model<'a> {
    memory: &'a Memory,
    bindings: Vec<u16>,
    notes: Notes,
    left: usize,
}

impl<'a> Model<'a> {
    fn step(&mut self) -> Result<(), TooLong> {
        self.left = self.left.checked_sub(1).ok_or(TooLong)?;
        Ok(())
    }

    fn head(&self, place: u16) -> Head<'a> {
        let (memory, place) = (self.memory, Place::of(place));
        let row = match place {
            Place::Sort(sort) => memory.sort(sort.into()),
            Place::Node(node) => memory.node(node.into()),
        };
        match (row.kind, place) {
            (kind::VARIABLE, _) => Head::Variable(row.part),
            (kind::LIST..=kind::FBAG, _) => Head::Container(row.kind, row.part),
            (kind::FUNCTION, Place::Sort(_)) => Head::Function(memory.sort_arguments(row), row.part),
            (kind::FUNCTION, Place::Node(_)) => Head::Function(memory.node_arguments(row), row.part),
            _ => Head::Leaf,
        }
    }

    /// Follows bindings from a place.
    fn end(&self, mut place: u16) -> u16 {
        while let Head::Variable(variable) = self.head(place) {
            match self.bindings[usize::from(variable)] {
                FREE => break,
                next => place = next,
            }
        }
        place
    }

    fn unify(&mut self, lhs: u16, rhs: u16) -> Result<bool, TooLong> {
        self.step()?;
        let (lhs, rhs) = (self.end(lhs), self.end(rhs));
        if lhs == rhs {
            return Ok(true);
        }
        if let (Place::Sort(_), Place::Sort(_)) = (Place::of(lhs), Place::of(rhs)) {
            return Ok(false); // No two sorts of a list are equal.
        }
        match (self.head(lhs), self.head(rhs)) {
            (Head::Variable(left), Head::Variable(right)) if left == right => {
                self.notes.twins = true;
                Ok(true)
            }
            (Head::Variable(left), _) => self.bind(left, rhs),
            (_, Head::Variable(right)) => self.bind(right, lhs),
            (Head::Container(left, left_part), Head::Container(right, right_part)) => {
                Ok(left == right && self.unify(left_part, right_part)?)
            }
            (Head::Function(left, left_range), Head::Function(right, right_range)) => {
                if left.len() != right.len() {
                    return Ok(false);
                }
                for (&left, &right) in left.iter().zip(right) {
                    if !self.unify(left, right)? {
                        return Ok(false);
                    }
                }
                self.unify(left_range, right_range)
            }
            _ => Ok(false),
        }
    }

    fn bind(&mut self, variable: u16, end: u16) -> Result<bool, TooLong> {
        if self.occurs(variable, end)? {
            self.notes.occurs = true;
            return Ok(false);
        }
        self.bindings[usize::from(variable)] = end;
        self.notes.bound += 1;
        Ok(true)
    }

    /// Whether a free variable is in what a place stands for.
    fn occurs(&mut self, variable: u16, place: u16) -> Result<bool, TooLong> {
        self.step()?;
        let end = self.end(place);
        if let Place::Sort(_) = Place::of(end) {
            return Ok(false);
        }
        match self.head(end) {
            Head::Variable(other) => Ok(other == variable),
            Head::Container(_, part) => self.occurs(variable, part),
            Head::Function(arguments, range) => {
                for &argument in arguments {
                    if self.occurs(variable, argument)? {
                        return Ok(true);
                    }
                }
                self.occurs(variable, range)
            }
            Head::Leaf => Ok(false),
        }
    }
}

/// What each variable stands for under some bindings: the sort, container or function at the end, or
/// the lowest of the variables that end in the same free one. Bindings of a wrong port may name
/// nothing, or have no end.
pub fn ends(memory: &Memory, bindings: &[u16]) -> Result<Vec<End>, String> {
    let ends = (0..bindings.len()).map(|variable| end_of(memory, bindings, variable));
    let mut ends = ends.collect::<Result<Vec<End>, String>>()?;
    let mut lowest = vec![None; bindings.len()];
    for (variable, end) in ends.iter_mut().enumerate() {
        if let End::Free(free) = end {
            *free = *lowest[usize::from(*free)].get_or_insert(variable as u16);
        }
    }
    Ok(ends)
}

fn end_of(memory: &Memory, bindings: &[u16], first: usize) -> Result<End, String> {
    let mut variable = first;
    for _ in 0..bindings.len() {
        let place = bindings[variable];
        match Place::of(place) {
            _ if place == FREE => return Ok(End::Free(variable as u16)),
            Place::Sort(sort) if usize::from(sort) < memory.sort_count => return Ok(End::Place(place)),
            Place::Node(node) if usize::from(node) < memory.node_count => {
                let row = memory.node(node.into());
                if row.kind != kind::VARIABLE {
                    return Ok(End::Place(place));
                }
                variable = row.part.into();
            }
            _ => return Err(format!("variable {variable} is bound to {place}, which names nothing")),
        }
    }
    Err(format!("variable {first} reaches itself"))
}

/// Check 7, for a list that passes those before it: whether some variable reaches itself through
/// bindings and node parts, by one walk from the binding of each.
pub fn reaches_itself(memory: &Memory) -> bool {
    (0..memory.variable_count).any(|variable| reached_from(memory, variable)[variable])
}

/// The variables that one reaches.
fn reached_from(memory: &Memory, variable: usize) -> Vec<bool> {
    let mut variables = vec![false; memory.variable_count];
    let mut nodes = vec![false; memory.node_count];
    let mut open = vec![memory.bindings[variable]];
    while let Some(place) = open.pop() {
        let Place::Node(node) = Place::of(place) else { continue };
        if place == FREE || std::mem::replace(&mut nodes[usize::from(node)], true) {
            continue;
        }
        let row = memory.node(node.into());
        match row.kind {
            kind::VARIABLE => {
                variables[usize::from(row.part)] = true;
                open.push(memory.bindings[usize::from(row.part)]);
            }
            kind::FUNCTION => {
                open.extend(memory.node_arguments(row));
                open.push(row.part);
            }
            _ => open.push(row.part),
        }
    }
    variables
}
