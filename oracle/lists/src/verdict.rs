//! What the Rust answers, in numbers of the list.

use std::cmp::Ordering;

/// A sort by its kind and the numbers of its parts.
#[derive(Clone, Debug, Eq, Hash, PartialEq)]
pub struct Shape {
    pub kind: u16,
    pub part: u16,
    pub arguments: Vec<u16>,
}

/// `Solver::best`, read as `infer` reads it.
#[derive(Clone, Debug, Eq, PartialEq)]
pub enum Verdict {
    Typing {
        /// One sort per expression.
        sorts: Vec<u16>,
        /// Target kind and sort per expression.
        names: Vec<(u16, u16)>,
        measure: Vec<u8>,
    },
    NoTyping,
    Ambiguous {
        measure: Vec<u8>,
    },
}

impl Verdict {
    pub fn code(&self) -> u16 {
        match self {
            Verdict::Typing { .. } => 0,
            Verdict::NoTyping => 17,
            Verdict::Ambiguous { .. } => 18,
        }
    }
}

/// What a variable stands for once its bindings are followed.
#[derive(Clone, Copy, Debug, Eq, PartialEq)]
pub enum End {
    /// A sort, or a container or function node, as a place word.
    Place(u16),
    /// Free; the lowest variable that it is one with.
    Free(u16),
}

/// What the search did beside its verdict, from the counting build.
#[derive(Clone, Debug, Default, Eq, PartialEq)]
pub struct Tally {
    /// Expression and position of each overload chosen at the incumbent's leaf, in the order of the constraints; where an
    /// answer is made of it, as they are handed out.
    pub choices: Vec<(u16, u16)>,
    /// Nodes and their entries made in all, and the most in use at one time.
    pub nodes_made: usize,
    pub node_entries_made: usize,
    pub nodes_peak: usize,
    pub node_entries_peak: usize,
    /// Prefixes dropped because the incumbent's was smaller.
    pub dropped: usize,
    pub events: Vec<Event>,
}

impl Tally {
    /// The choices as they are handed out: by rising expression number.
    pub fn choices_rising(&self) -> Vec<(u16, u16)> {
        let mut choices = self.choices.clone();
        choices.sort_unstable();
        choices
    }
}

/// One step of the search that touches room, in time order.
#[derive(Clone, Debug, Eq, PartialEq)]
pub enum Event {
    /// A new sort, with its number of argument entries.
    Sort { entries: usize },
    /// A new node, with its number of argument entries.
    Node { entries: usize },
    /// Nodes given back when the tries of a widening are over.
    GiveBack { nodes: usize },
}

/// The Rust's answer to one question.
#[derive(Clone, Debug, Eq, PartialEq)]
pub enum Reply {
    Solve(Verdict),
    /// What each variable stands for after a yes.
    Unify(Option<Vec<End>>),
    Order(Option<Ordering>),
    /// A join or meet.
    Bound(Option<u16>),
    Distance(Option<(u8, u8)>),
    Materializable(bool),
}

/// A reply, and the sorts made on the way, in order of making.
#[derive(Clone, Debug, Eq, PartialEq)]
pub struct Heard {
    pub reply: Reply,
    pub new: Vec<Shape>,
}
