//! Every small list of a kind.

use std::sync::OnceLock;

use crate::generate::Case;
use crate::generate::random;
use crate::given::Given;
use crate::memory::*;
use crate::question::Question;

// The stock of the small lists: sorts 6 to 9 and nodes 0 to 4.
const FSET_NAT: u16 = 6;
const SET_NAT: u16 = 7;
const BOOL_TO_POS: u16 = 8;
const BOOL_TO_NAT: u16 = 9;
const V0: u16 = FIRST_NODE;
const V1: u16 = FIRST_NODE + 1;
const FSET_V0: u16 = FIRST_NODE + 2;
const BOOL_TO_V0: u16 = FIRST_NODE + 3;
const LIST_V1: u16 = FIRST_NODE + 4;

const PLACES: [u16; 11] =
    [kind::BOOL, kind::POS, kind::NAT, FSET_NAT, SET_NAT, BOOL_TO_POS, V0, V1, FSET_V0, BOOL_TO_V0, LIST_V1];
const COMPREHENSION_PLACES: [u16; 6] = [kind::BOOL, kind::POS, kind::NAT, SET_NAT, V0, V1];
const OVERLOAD_PLACES: [u16; 6] = [kind::BOOL, kind::POS, kind::NAT, SET_NAT, BOOL_TO_NAT, V1];
const SOURCE_PLACES: [u16; 8] = [kind::POS, kind::NAT, FSET_NAT, SET_NAT, BOOL_TO_POS, BOOL_TO_NAT, V1, FSET_V0];
const TARGET_PLACES: [u16; 3] = [kind::NAT, V0, V1];

/// The constraints of the small lists.
static STOCK: OnceLock<Vec<Small>> = OnceLock::new();

/// A constraint of the stock.
#[derive(Clone, PartialEq)]
enum Small {
    /// A row without a run.
    Plain([u16; CONSTRAINT]),
    Disjunction {
        expression: u16,
        overloads: Vec<u16>,
    },
    Join {
        target: u16,
        sources: Vec<u16>,
    },
}

fn stock() -> Vec<Small> {
    let mut stock = Vec::new();
    for (lhs, rhs) in squares(&PLACES) {
        stock.push(Small::Plain([constraint::SUB, lhs, rhs, 0, 0]));
    }
    for place in PLACES {
        for literal in [literal::POSITIVE, literal::NATURAL] {
            stock.push(Small::Plain([constraint::LIT, place, literal, 0, 0]));
        }
    }
    for (body, node) in squares(&COMPREHENSION_PLACES) {
        for element in [kind::POS, kind::NAT] {
            stock.push(Small::Plain([constraint::COMPREHENSION, body, node, element, 0]));
        }
    }
    for expression in [0, 1] {
        stock.push(Small::Disjunction { expression, overloads: Vec::new() });
        for overloads in one_or_two(&OVERLOAD_PLACES) {
            stock.push(Small::Disjunction { expression, overloads });
        }
    }
    for target in TARGET_PLACES {
        for sources in one_or_two(&SOURCE_PLACES) {
            stock.push(Small::Join { target, sources });
        }
    }
    stock
}

fn squares(places: &[u16]) -> impl Iterator<Item = (u16, u16)> {
    places.iter().flat_map(|&lhs| places.iter().map(move |&rhs| (lhs, rhs)))
}

fn one_or_two(places: &[u16]) -> Vec<Vec<u16>> {
    let one = places.iter().map(|&place| vec![place]);
    one.chain(squares(places).map(|(first, second)| vec![first, second])).collect()
}

/// The lists of one constraint, then those of two. Two disjunctions are for different expressions.
pub fn small(index: u64) -> Option<Case> {
    let stock = STOCK.get_or_init(stock);
    let length = stock.len() as u64;
    let chosen = match index.checked_sub(length) {
        None => vec![&stock[index as usize]],
        Some(pair) if pair < length * length => {
            vec![&stock[(pair / length) as usize], &stock[(pair % length) as usize]]
        }
        Some(_) => return None,
    };
    let mut list = ground();
    let mut taken = None;
    for constraint in chosen {
        let constraint = match constraint {
            Small::Disjunction { expression, overloads } if taken == Some(*expression) => {
                &Small::Disjunction { expression: 1 - expression, overloads: overloads.clone() }
            }
            other => other,
        };
        if let Small::Disjunction { expression, .. } = constraint {
            taken = Some(*expression);
        }
        push(&mut list, constraint);
    }
    Some(Case { list, questions: vec![Question::Solve], planted: None })
}

fn ground() -> Given {
    let mut list = Given::new("");
    list.sorts.extend([
        Row::plain(kind::FSET, kind::NAT),
        Row::plain(kind::SET, kind::NAT),
        Row { kind: kind::FUNCTION, part: kind::POS, start: 0, count: 1 },
        Row { kind: kind::FUNCTION, part: kind::NAT, start: 1, count: 1 },
    ]);
    list.entries.extend([kind::BOOL, kind::BOOL]);
    list.bindings.extend([FREE, FREE]);
    list.nodes.extend([
        Row::plain(kind::VARIABLE, 0),
        Row::plain(kind::VARIABLE, 1),
        Row::plain(kind::FSET, V0),
        Row { kind: kind::FUNCTION, part: V0, start: 0, count: 1 },
        Row::plain(kind::LIST, V1),
    ]);
    list.node_entries.push(kind::BOOL);
    list.exprs.extend([V0, V1]);
    list
}

fn push(list: &mut Given, constraint: &Small) {
    let row = match constraint {
        Small::Plain(row) => *row,
        Small::Disjunction { expression, overloads } => {
            let start = list.overloads.len() as u16;
            list.overloads.extend(overloads.iter().map(|&place| [target::BUILTIN, 0, place]));
            [constraint::DISJUNCTION, *expression, V0 + expression, start, overloads.len() as u16]
        }
        Small::Join { target, sources } => {
            let start = list.sources.len() as u16;
            list.sources.extend(sources);
            [constraint::JOIN, *target, start, sources.len() as u16, 0]
        }
    };
    list.constraints.push(row);
}

/// All sorts of at most three parts, without unit, Def and TypeVar; list `index` asks about sort
/// `index` against each.
pub fn pairs(index: u64) -> Option<Case> {
    let mut list = Given::new("");
    let flat = kind::BOOL..=kind::REAL;
    for depth in 0..2 {
        let parts: Vec<u16> = match depth {
            0 => flat.clone().collect(),
            _ => (6..list.sorts.len() as u16).collect(),
        };
        for container in kind::LIST..=kind::FBAG {
            list.sorts.extend(parts.iter().map(|&part| Row::plain(container, part)));
        }
    }
    for argument in flat.clone() {
        for range in flat.clone() {
            list.sorts.push(Row { kind: kind::FUNCTION, part: range, start: list.entries.len() as u16, count: 1 });
            list.entries.push(argument);
        }
    }
    let sorts = list.sorts.len() as u16;
    let lhs = u16::try_from(index).ok().filter(|&lhs| lhs < sorts)?;
    let questions = (0..sorts).flat_map(|rhs| random::of_sorts(lhs, rhs)).collect();
    Some(Case { list, questions, planted: None })
}
