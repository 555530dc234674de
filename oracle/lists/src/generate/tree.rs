//! Sorts as trees, by structure, for the hidden assignment behind a random list.

use crate::memory::kind;

#[derive(Clone, Debug, Eq, Hash, PartialEq)]
pub enum Tree {
    /// A fixed sort, a Def or a TypeVar: kind and number.
    Leaf(u16, u16),
    Container(u16, Box<Tree>),
    Function(Vec<Tree>, Box<Tree>),
}

impl Tree {
    pub fn fixed(kind: u16) -> Tree {
        Tree::Leaf(kind, 0)
    }

    pub fn container(kind: u16, part: &Tree) -> Tree {
        Tree::Container(kind, Box::new(part.clone()))
    }

    pub fn is_number(&self) -> bool {
        matches!(self, Tree::Leaf(kind::POS..=kind::REAL, _))
    }

    pub fn depth(&self) -> usize {
        match self {
            Tree::Leaf(..) => 1,
            Tree::Container(_, part) => 1 + part.depth(),
            Tree::Function(arguments, range) => {
                1 + arguments.iter().map(Tree::depth).max().unwrap_or(0).max(range.depth())
            }
        }
    }

    /// Whether the sorts differ at most in numbers and in finite against infinite containers.
    pub fn is_like(&self, other: &Tree) -> bool {
        match (self, other) {
            (Tree::Leaf(..), Tree::Leaf(..)) => self == other || self.is_number() && other.is_number(),
            (Tree::Container(kind, part), Tree::Container(other_kind, other_part)) => {
                family(*kind) == family(*other_kind) && part.is_like(other_part)
            }
            (Tree::Function(arguments, range), Tree::Function(other_arguments, other_range)) => {
                arguments.len() == other_arguments.len()
                    && arguments.iter().zip(other_arguments).all(|(argument, other)| argument.is_like(other))
                    && range.is_like(other_range)
            }
            _ => false,
        }
    }

    /// Whether a value of this sort can be handed to a place of the other.
    pub fn converts_to(&self, to: &Tree) -> bool {
        match (self, to) {
            _ if self == to => true,
            (Tree::Leaf(from, _), Tree::Leaf(to_kind, _)) => self.is_number() && to.is_number() && from < to_kind,
            (Tree::Container(from, part), Tree::Container(to, to_part)) => {
                matches!((*from, *to), (kind::FSET, kind::SET) | (kind::FBAG, kind::BAG)) && part == to_part
            }
            (Tree::Function(arguments, range), Tree::Function(to_arguments, to_range)) => {
                arguments == to_arguments && range.converts_to(to_range)
            }
            _ => false,
        }
    }
}

/// One number for the finite and the infinite container of a kind.
fn family(container: u16) -> u16 {
    match container {
        kind::FSET => kind::SET,
        kind::FBAG => kind::BAG,
        other => other,
    }
}
