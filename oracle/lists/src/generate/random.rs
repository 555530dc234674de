//! Random lists.

use crate::generate::Case;
use crate::generate::Class;
use crate::generate::draft::Draft;
use crate::generate::tree::Tree;
use crate::memory::*;
use crate::question::Question;
use crate::rng::Rng;

pub fn solve(rng: &mut Rng, class: Class, size: usize) -> Case {
    let mut draft = Draft::new(rng);
    add_ground(&mut draft, size);
    for _ in 0..draft.rng.below(3 + size) {
        add_expression(&mut draft);
    }
    for _ in 0..draft.rng.below(2 * size + 2) {
        add_constraint(&mut draft, class);
    }
    for _ in 0..bindings(&mut draft, size) {
        draft.add_binding();
    }
    for _ in 0..draft.rng.below(3) {
        add_expression(&mut draft);
    }
    add_base_names(&mut draft);
    if draft.rng.chance(30) {
        draft.list.default = draft.any_sort();
    }
    if draft.rng.chance(5) {
        add_strays(&mut draft);
    }
    Case { list: draft.list, questions: vec![Question::Solve], planted: None }
}

/// Ceilings a little above what the list gives.
pub fn room(rng: &mut Rng, size: usize) -> Case {
    let class = rng.pick(&[Class::Solve, Class::Join, Class::Choice]);
    let mut case = solve(rng, class, size);
    let list = &mut case.list;
    list.ceilings = Ceilings {
        sorts: list.sorts.len() + rng.below(4),
        entries: list.entries.len() + rng.below(4),
        nodes: list.nodes.len() + rng.below(5),
        node_entries: list.node_entries.len() + rng.below(5),
    };
    let wide = Ceilings::default();
    if rng.chance(50) {
        list.ceilings = Ceilings { sorts: wide.sorts, entries: wide.entries, ..list.ceilings };
    } else if rng.chance(30) {
        list.ceilings = Ceilings { nodes: wide.nodes, node_entries: wide.node_entries, ..list.ceilings };
    }
    case
}

/// Filled with rows that nothing refers to, up to a little below the document's ceilings.
pub fn full(rng: &mut Rng, size: usize) -> Case {
    let class = rng.pick(&[Class::Solve, Class::Join, Class::Choice]);
    let mut case = solve(rng, class, size);
    let list = &mut case.list;
    if rng.chance(60) {
        for number in list.sorts.len()..MAX_SORTS - rng.below(4) {
            list.sorts.push(Row::plain(kind::DEF, number as u16));
        }
    }
    if rng.chance(60) {
        list.nodes.resize(MAX_NODES - rng.below(5), Row::plain(kind::LIST, kind::BOOL));
    }
    if rng.chance(30) {
        list.entries.resize(MAX_ENTRIES - rng.below(4), 0);
    }
    if rng.chance(30) {
        list.node_entries.resize(MAX_NODE_ENTRIES - rng.below(5), 0);
    }
    case
}

/// Entries that nothing refers to, up to a little below the document's ceilings: of sorts, of nodes, or of both.
pub fn entries(rng: &mut Rng, size: usize) -> Case {
    let class = rng.pick(&[Class::Solve, Class::Join, Class::Choice]);
    let mut case = solve(rng, class, size);
    let (sorts, nodes) = rng.pick(&[(true, false), (false, true), (true, true)]);
    if sorts {
        case.list.entries.resize(MAX_ENTRIES - rng.below(4), 0);
    }
    if nodes {
        case.list.node_entries.resize(MAX_NODE_ENTRIES - rng.below(5), 0);
    }
    case
}

pub fn unify(rng: &mut Rng, size: usize) -> Case {
    let mut draft = Draft::new(rng);
    add_ground(&mut draft, size);
    for _ in 0..draft.rng.below(3 * size) {
        draft.add_node();
    }
    for _ in 0..draft.rng.below(size + 2) {
        draft.add_binding();
    }
    let mut questions = Vec::new();
    for _ in 0..4 {
        let lhs = draft.any_place();
        let tree = draft.tree(lhs).clone();
        let alike = draft.place_where(|other| *other == tree).filter(|_| draft.rng.chance(60));
        let rhs = alike.unwrap_or_else(|| draft.any_place());
        questions.push(Question::Unify(lhs, rhs));
    }
    Case { list: draft.list, questions, planted: None }
}

pub fn lattice(rng: &mut Rng, size: usize) -> Case {
    let mut draft = Draft::new(rng);
    for _ in 0..4 + 4 * size {
        draft.add_sort();
    }
    let mut questions = Vec::new();
    for _ in 0..4 {
        let lhs = draft.any_sort();
        let like = if draft.rng.chance(80) { draft.sort_like(lhs) } else { None };
        let rhs = like.unwrap_or_else(|| draft.any_sort());
        questions.extend(of_sorts(lhs, rhs));
    }
    if draft.rng.chance(20) {
        draft.list.ceilings.sorts = draft.list.sorts.len() + draft.rng.below(2);
        draft.list.ceilings.entries = draft.list.entries.len() + draft.rng.below(3);
    }
    Case { list: draft.list, questions, planted: None }
}

/// All questions about two sorts.
pub fn of_sorts(lhs: u16, rhs: u16) -> [Question; 5] {
    [
        Question::PartialCmp(lhs, rhs),
        Question::Join(lhs, rhs),
        Question::Meet(lhs, rhs),
        Question::WideningDistance(lhs, rhs),
        Question::IsMaterializable(lhs, rhs),
    ]
}

/// Sorts, variables and nodes.
fn add_ground(draft: &mut Draft, size: usize) {
    for _ in 0..draft.rng.below(2 * size + 2) {
        draft.add_sort();
    }
    for _ in 0..draft.rng.below(size + 3) {
        draft.add_random_variable();
    }
    for _ in 0..draft.rng.below(size + 2) {
        draft.add_node();
    }
    if draft.rng.chance(15) {
        draft.add_odd_variable();
    }
}

fn bindings(draft: &mut Draft, size: usize) -> usize {
    match draft.rng.chance(40) {
        true => draft.rng.between(1, size + 1),
        false => 0,
    }
}

fn add_expression(draft: &mut Draft) {
    let place = draft.any_place();
    draft.list.exprs.push(place);
}

fn add_base_names(draft: &mut Draft) {
    for expression in 0..draft.list.exprs.len() as u16 {
        if draft.rng.chance(25) {
            let (kind, sort) = any_target(draft);
            draft.list.names.push([expression, kind, sort]);
        }
    }
}

fn any_target(draft: &mut Draft) -> (u16, u16) {
    match draft.rng.below(4) {
        0 => (target::VARIABLE, 0),
        1 => (target::BUILTIN, 0),
        _ => (target::OP, draft.any_sort()),
    }
}

/// Entries, overloads and sources that nothing refers to.
fn add_strays(draft: &mut Draft) {
    draft.list.entries.push(9);
    draft.list.node_entries.push(9);
    draft.list.overloads.push([9, 9, 9]);
    draft.list.sources.push(FREE);
}

fn add_constraint(draft: &mut Draft, class: Class) {
    use constraint::*;
    if draft.rng.chance(if class == Class::Choice { 20 } else { 5 }) {
        return add_measured_choice(draft);
    }
    let kinds = match class {
        Class::Join => [JOIN, JOIN, JOIN, JOIN, JOIN, SUB, LIT, LIT, DISJUNCTION, COMPREHENSION],
        Class::Choice => [DISJUNCTION, DISJUNCTION, DISJUNCTION, DISJUNCTION, COMPREHENSION, SUB, SUB, SUB, LIT, JOIN],
        _ => [SUB, SUB, SUB, LIT, LIT, DISJUNCTION, DISJUNCTION, COMPREHENSION, JOIN, JOIN],
    };
    match draft.rng.pick(&kinds) {
        SUB => add_sub(draft),
        LIT => add_literal(draft),
        DISJUNCTION => add_disjunction(draft),
        COMPREHENSION => add_comprehension(draft),
        _ => add_join(draft),
    }
}

fn add_sub(draft: &mut Draft) {
    let rhs = draft.any_place();
    let lhs = source_of(draft, rhs);
    draft.list.constraints.push([constraint::SUB, lhs, rhs, 0, 0]);
}

/// A place to widen into `target`: mostly one whose hidden sort converts to its.
fn source_of(draft: &mut Draft, target: u16) -> u16 {
    let tree = draft.tree(target).clone();
    let fitting = match draft.rng.chance(90) {
        true => draft.place_where(|other| other.converts_to(&tree)),
        false => None,
    };
    fitting.unwrap_or_else(|| draft.any_place())
}

fn add_literal(draft: &mut Draft) {
    let kind = draft.rng.pick(&[literal::POSITIVE, literal::NATURAL]);
    let fits = |tree: &Tree| tree.is_number() && (kind == literal::POSITIVE || *tree != Tree::fixed(kind::POS));
    let place = match draft.rng.chance(90) {
        true => draft.place_where(fits),
        false => None,
    };
    let place = place.unwrap_or_else(|| draft.any_place());
    draft.list.constraints.push([constraint::LIT, place, kind, 0, 0]);
}

fn add_comprehension(draft: &mut Draft) {
    let element = draft.common_sort();
    let (body, container) = draft.rng.pick(&[(kind::BOOL, kind::SET), (kind::NAT, kind::BAG), (kind::POS, kind::BAG)]);
    let tree = Tree::container(container, draft.sort_tree(element));
    let node = match draft.rng.chance(90) {
        true => draft.place_of(&tree),
        false => draft.any_place(),
    };
    let body = draft.place_of(&Tree::fixed(body));
    draft.list.constraints.push([constraint::COMPREHENSION, body, node, element, 0]);
}

/// An expression that has no disjunction yet; mostly its own place is the disjunction's.
fn add_disjunction(draft: &mut Draft) {
    let expression = draft.list.exprs.len() as u16;
    let place = if draft.rng.chance(70) { draft.some_variable() } else { draft.any_place() };
    let own = if draft.rng.chance(80) { place } else { draft.any_place() };
    draft.list.exprs.push(own);
    let tree = draft.tree(place).clone();
    let count = draft.rng.pick(&[0, 1, 1, 2, 2, 2, 2, 3, 3, 4]);
    let right = draft.rng.below(4);
    let start = draft.list.overloads.len() as u16;
    for index in 0..count {
        let overload = match (index == right, draft.rng.below(10)) {
            (true, _) | (_, 0) => draft.place_of(&tree),
            (_, 1..=4) if tree.is_number() => draft.rng.between(kind::POS.into(), kind::REAL.into()) as u16,
            (_, 1..=6) => draft.place_where(|other| other.is_like(&tree)).unwrap_or(kind::BOOL),
            _ => draft.any_place(),
        };
        let (kind, sort) = any_target(draft);
        draft.list.overloads.push([kind, sort, overload]);
    }
    draft.list.constraints.push([constraint::DISJUNCTION, expression, place, start, count as u16]);
    draft.focus = Some(place);
}

/// A choice between numbers, and later a constraint whose component tells them apart, so that the
/// worse ones are dropped where a better one came first.
fn add_measured_choice(draft: &mut Draft) {
    let place = draft.add_variable(Tree::fixed(kind::POS));
    let expression = draft.list.exprs.len() as u16;
    draft.list.exprs.push(place);
    let start = draft.list.overloads.len() as u16;
    let count = draft.rng.between(2, 3);
    for _ in 0..count {
        let number = draft.rng.between(kind::POS.into(), kind::INT.into()) as u16;
        draft.list.overloads.push([target::OP, number, number]);
    }
    draft.list.constraints.push([constraint::DISJUNCTION, expression, place, start, count as u16]);
    for _ in 0..draft.rng.below(2) {
        add_sub(draft);
    }
    let measured = match draft.rng.below(3) {
        0 => [constraint::LIT, place, literal::POSITIVE, 0, 0],
        1 => [constraint::SUB, place, kind::REAL, 0, 0],
        _ => [constraint::SUB, kind::POS, place, 0, 0],
    };
    draft.list.constraints.push(measured);
}

fn add_join(draft: &mut Draft) {
    let target = draft.any_place();
    let count = draft.rng.between(1, 3);
    let start = draft.list.sources.len() as u16;
    for _ in 0..count {
        let source = source_of(draft, target);
        draft.list.sources.push(source);
    }
    draft.list.constraints.push([constraint::JOIN, target, start, count as u16, 0]);
}
