//! Why there is no typing.

use std::error::Error;
use std::fmt;

/// Why a problem has no typing. The number of a variant is the code of docs/FORMAT.md: 1 to 14 are checks before the
/// search, of which the first that fails is named, 15 to 18 are ends of the search.
///
/// ```
/// use julqetai::{Problem, Refusal, SortId, Workspace};
///
/// let mut problem = Problem::new();
/// problem.sub(SortId::NAT, SortId::POS);
/// let refusal = Workspace::new().solve(&problem).unwrap_err();
/// assert_eq!(refusal, Refusal::NoTyping);
/// assert_eq!(refusal.code(), 17);
/// assert_eq!(refusal.to_string(), "the search ended with no typing");
/// ```
#[derive(Clone, Copy, Debug, Eq, Hash, PartialEq)]
#[repr(u8)]
pub enum Refusal {
    /// A list is above its ceiling.
    TooMany = 1,
    /// The first six sorts are not the fixed six.
    FixedSorts = 2,
    /// A sort has more than 16 arguments, or a part that is not numbered below it.
    BadSort = 3,
    /// Two sorts of the list are equal.
    EqualSorts = 4,
    /// A node has more than 16 arguments, a part that is neither a sort nor a lower node, or a variable that is not
    /// there.
    BadNode = 5,
    /// A binding names neither a sort nor a node.
    BadBinding = 6,
    /// A variable reaches itself through bindings and node parts.
    Cycle = 7,
    /// An expression's place, or the expression or sort of a base name, names nothing.
    BadExpression = 8,
    /// A place, expression or sort in a constraint names nothing.
    BadConstraint = 9,
    /// Two disjunctions, or two base names, are for one expression.
    Twice = 10,
    /// A Join has no sources, or there are more than 256 measure components.
    BadMeasure = 11,
    /// The default sort is not in the list.
    BadDefault = 12,
    /// An output, the scratch or the index is too short. A [Workspace](crate::Workspace) lends enough of each.
    TooShort = 14,
    /// In the search a new sort would exceed 1,024 sorts or 4,096 arguments.
    NoRoomForSort = 15,
    /// In the search a new node would exceed 2,048 nodes or 4,096 arguments.
    NoRoomForNode = 16,
    /// The search ended with no typing. That is merc's verdict; it does not say that none exists.
    NoTyping = 17,
    /// The least measure was met more than once: ambiguous.
    Ambiguous = 18,
}

impl Refusal {
    /// All of them, by rising code.
    pub const ALL: [Refusal; 17] = [
        Refusal::TooMany,
        Refusal::FixedSorts,
        Refusal::BadSort,
        Refusal::EqualSorts,
        Refusal::BadNode,
        Refusal::BadBinding,
        Refusal::Cycle,
        Refusal::BadExpression,
        Refusal::BadConstraint,
        Refusal::Twice,
        Refusal::BadMeasure,
        Refusal::BadDefault,
        Refusal::TooShort,
        Refusal::NoRoomForSort,
        Refusal::NoRoomForNode,
        Refusal::NoTyping,
        Refusal::Ambiguous,
    ];

    /// The code.
    pub fn code(self) -> u8 {
        self as u8
    }

    /// The refusal that has a code.
    pub fn from_code(code: u8) -> Option<Refusal> {
        Refusal::ALL.into_iter().find(|refusal| refusal.code() == code)
    }

    /// Whether the search ended of itself, so that the sorts that it made are kept.
    pub fn is_searched(self) -> bool {
        matches!(self, Refusal::NoTyping | Refusal::Ambiguous)
    }
}

impl fmt::Display for Refusal {
    fn fmt(&self, f: &mut fmt::Formatter<'_>) -> fmt::Result {
        f.write_str(match self {
            Refusal::TooMany => "a list of the problem is above its ceiling",
            Refusal::FixedSorts => "the first six sorts are not unit, Bool, Pos, Nat, Int, Real",
            Refusal::BadSort => "a sort has more than 16 arguments or a part that is not numbered below it",
            Refusal::EqualSorts => "two sorts of the list are equal",
            Refusal::BadNode => {
                "a node has more than 16 arguments, a part that is neither a sort nor a lower node, or an unknown \
                 variable"
            }
            Refusal::BadBinding => "a binding names neither a sort nor a node",
            Refusal::Cycle => "a variable reaches itself through bindings and node parts",
            Refusal::BadExpression => "the place of an expression, or a base name, names nothing",
            Refusal::BadConstraint => "a constraint names something that is not there",
            Refusal::Twice => "two disjunctions, or two base names, are for one expression",
            Refusal::BadMeasure => "a Join has no sources, or there are more than 256 measure components",
            Refusal::BadDefault => "the default sort is not in the list",
            Refusal::TooShort => "an output, the scratch or the index is too short",
            Refusal::NoRoomForSort => "the search needs more than 1,024 sorts or 4,096 arguments of sorts",
            Refusal::NoRoomForNode => "the search needs more than 2,048 nodes or 4,096 arguments of nodes",
            Refusal::NoTyping => "the search ended with no typing",
            Refusal::Ambiguous => "the least measure was met more than once: ambiguous",
        })
    }
}

impl Error for Refusal {}
