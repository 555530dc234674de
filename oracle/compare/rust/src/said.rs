//! A list said by the safe types.

use julqetai::ComplexSort;
use julqetai::Constraint;
use julqetai::ExprId;
use julqetai::LitKind;
use julqetai::NameTarget;
use julqetai::Node;
use julqetai::NodeId;
use julqetai::Overload;
use julqetai::Place;
use julqetai::Problem;
use julqetai::Sort;
use julqetai::SortId;
use julqetai::SortVar;
use lists::given::Counted;
use lists::given::Given;
use lists::given::Lent;
use lists::memory::*;

/// The list with each run written anew at the end of its entries, as the safe types give it: nothing is shared. Entries that
/// no run has become arguments of more functions, if there is room for these, so that as much is left. `None` for what they cannot say: unknown kinds, runs that leave their list, counts and lengths of their own.
pub fn packed(list: &Given) -> Option<Given> {
    let own = Counted::ALL.iter().any(|(counted, _)| list.said_count(*counted).is_some())
        || Lent::ALL.iter().any(|(lent, _)| list.said_lend(*lent).is_some());
    if own || list.ceilings != Ceilings::default() {
        return None;
    }
    let mut new = list.clone();
    new.entries.clear();
    for row in &mut new.sorts {
        *row = packed_row(*row, &list.entries, &mut new.entries, row.kind <= kind::TYPE_VAR)?;
    }
    new.node_entries.clear();
    for row in &mut new.nodes {
        let known = row.kind == kind::VARIABLE || (kind::LIST..=kind::FUNCTION).contains(&row.kind);
        *row = packed_row(*row, &list.node_entries, &mut new.node_entries, known)?;
    }
    more_functions(&mut new.sorts, MAX_SORTS, &mut new.entries, list.entries.len());
    more_functions(&mut new.nodes, MAX_NODES, &mut new.node_entries, list.node_entries.len());
    (new.overloads, new.sources) = (Vec::new(), Vec::new());
    for row in &mut new.constraints {
        match row[0] {
            constraint::SUB | constraint::COMPREHENSION => {}
            constraint::LIT if row[2] <= literal::NATURAL => {}
            constraint::DISJUNCTION => row[3] = append(&mut new.overloads, run(&list.overloads, row[3], row[4])?),
            constraint::JOIN => row[2] = append(&mut new.sources, run(&list.sources, row[2], row[3])?),
            _ => return None,
        }
    }
    let known = |kind: u16| (target::VARIABLE..=target::BUILTIN).contains(&kind);
    let all = new.overloads.iter().all(|row| known(row[0])) && new.names.iter().all(|row| known(row[1]));
    all.then_some(new)
}

/// Functions over the fixed sorts up to a number of entries. As the arguments write their number, no two are equal.
fn more_functions(rows: &mut Vec<Row>, most: usize, entries: &mut Vec<u16>, count: usize) {
    if rows.len() + count.saturating_sub(entries.len()).div_ceil(MAX_ARGUMENTS) > most {
        return;
    }
    while entries.len() < count {
        let (start, length) = (entries.len(), MAX_ARGUMENTS.min(count - entries.len()));
        let digits = std::iter::successors(Some(rows.len()), |number| Some(number / 6));
        entries.extend(digits.map(|number| (number % 6) as u16).take(length));
        let (start, count) = (start.try_into().unwrap_or(u16::MAX), length as u16);
        rows.push(Row { kind: kind::FUNCTION, part: kind::UNIT, start, count });
    }
}

fn packed_row(row: Row, old: &[u16], new: &mut Vec<u16>, known: bool) -> Option<Row> {
    match row.kind {
        kind::FUNCTION => Some(Row { start: append(new, run(old, row.start, row.count)?), ..row }),
        _ => known.then_some(row),
    }
}

fn run<T>(list: &[T], start: u16, count: u16) -> Option<&[T]> {
    list.get(start.into()..)?.get(..count.into())
}

/// Where the run begins. A list so long that no word has it is refused for its length.
fn append<T: Clone>(list: &mut Vec<T>, run: &[T]) -> u16 {
    let start = list.len();
    list.extend_from_slice(run);
    start.try_into().unwrap_or(u16::MAX)
}

/// The same list, built by the safe types.
pub fn said(list: &Given) -> Problem {
    let mut problem = Problem::bare();
    for row in &list.sorts {
        let domain: Vec<SortId> = arguments(*row, &list.entries).iter().map(|&sort| SortId(sort)).collect();
        problem.add_sort(sort(*row, &domain));
    }
    for _ in &list.bindings {
        problem.add_var();
    }
    for row in &list.nodes {
        let domain: Vec<Place> = arguments(*row, &list.node_entries).iter().map(|&word| place(word)).collect();
        problem.add_node(node(*row, &domain));
    }
    for (var, &word) in (0..).zip(&list.bindings).filter(|(_, word)| **word != FREE) {
        problem.bind(SortVar(var), place(word)).expect("the variable was added");
    }
    for &word in &list.exprs {
        problem.add_expr(place(word));
    }
    for &[expr, kind, sort] in &list.names {
        problem.add_name(ExprId(expr), name_target(kind, sort));
    }
    for row in &list.constraints {
        add_constraint(&mut problem, list, *row);
    }
    problem.set_default(SortId(list.default));
    problem
}

fn add_constraint(problem: &mut Problem, list: &Given, [kind, a, b, c, d]: [u16; CONSTRAINT]) {
    match kind {
        constraint::SUB => problem.add_constraint(Constraint::Sub { lhs: place(a), rhs: place(b) }),
        constraint::LIT => {
            let kind = if b == literal::NATURAL { LitKind::Natural } else { LitKind::Positive };
            problem.add_constraint(Constraint::Lit { sort: place(a), kind });
        }
        constraint::DISJUNCTION => {
            let rows = run(&list.overloads, c, d).expect("runs are inside their list").iter();
            let overload =
                |row: &[u16; OVERLOAD]| Overload { target: name_target(row[0], row[1]), sort: place(row[2]) };
            let disjuncts: Vec<Overload> = rows.map(overload).collect();
            problem.add_constraint(Constraint::Disjunction { expr: ExprId(a), sort: place(b), disjuncts: &disjuncts });
        }
        constraint::COMPREHENSION => {
            let (body, node, element) = (place(a), place(b), SortId(c));
            problem.add_constraint(Constraint::Comprehension { body, node, element });
        }
        _ => {
            let words = run(&list.sources, b, c).expect("runs are inside their list");
            let sources: Vec<Place> = words.iter().map(|&word| place(word)).collect();
            problem.add_constraint(Constraint::Join { sources: &sources, target: place(a) });
        }
    }
}

fn arguments(row: Row, entries: &[u16]) -> &[u16] {
    match row.kind {
        kind::FUNCTION => run(entries, row.start, row.count).expect("runs are inside their list"),
        _ => &[],
    }
}

fn place(word: u16) -> Place {
    match word.checked_sub(FIRST_NODE) {
        None => Place::Sort(SortId(word)),
        Some(node) => Place::Node(NodeId(node)),
    }
}

pub fn op(kind: u16) -> ComplexSort {
    match kind {
        kind::LIST => ComplexSort::List,
        kind::SET => ComplexSort::Set,
        kind::FSET => ComplexSort::FSet,
        kind::BAG => ComplexSort::Bag,
        kind::FBAG => ComplexSort::FBag,
        kind => panic!("{kind} is no container"),
    }
}

pub fn sort(row: Row, domain: &[SortId]) -> Sort<'_> {
    match row.kind {
        kind::UNIT => Sort::Unit,
        kind::BOOL => Sort::Bool,
        kind::POS => Sort::Pos,
        kind::NAT => Sort::Nat,
        kind::INT => Sort::Int,
        kind::REAL => Sort::Real,
        kind::FUNCTION => Sort::Function { domain, range: SortId(row.part) },
        kind::DEF => Sort::Def(row.part),
        kind::TYPE_VAR => Sort::TypeVar(row.part),
        kind => Sort::Container { op: op(kind), subsort: SortId(row.part) },
    }
}

fn node(row: Row, domain: &[Place]) -> Node<'_> {
    match row.kind {
        kind::FUNCTION => Node::Function { domain, range: place(row.part) },
        kind::VARIABLE => Node::Var(SortVar(row.part)),
        kind => Node::Generic { op: op(kind), subsort: place(row.part) },
    }
}

/// The target of a name whose kind is known.
pub fn name_target(kind: u16, sort: u16) -> NameTarget {
    match kind {
        target::VARIABLE => NameTarget::Variable,
        target::OP => NameTarget::Op { sort: SortId(sort) },
        _ => NameTarget::Builtin,
    }
}
