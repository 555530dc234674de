//! A model of the checks before the search: the first failing one, by number, or none.
//!
//! Each check is a predicate of its own over the memory form. A check may lean on those before it
//! (a run is only read once it is known to lie inside its list).

use std::collections::HashSet;

use crate::memory::*;
use crate::question::Question;

/// The first failing check of the call that asks `question`, or `None` if the call is accepted.
pub fn first_failing(memory: &Memory, question: Question) -> Option<u16> {
    let call = Call::new(memory, question);
    CHECKS.iter().find(|(_, passes)| !passes(&call)).map(|&(code, _)| code)
}

/// Whether one check passes, on a call for which those that it leans on do.
pub fn passes(memory: &Memory, question: Question, code: u16) -> bool {
    let call = Call::new(memory, question);
    CHECKS.iter().filter(|(other, _)| *other == code).all(|(_, passes)| passes(&call))
}

/// A question and the lists that its entry takes. Checks of other lists do not apply.
struct Call<'a> {
    memory: &'a Memory,
    question: Question,
    /// Nodes, variables and bindings are taken.
    nodes: bool,
    /// Expressions, base names, constraints, a default, scratch and outputs are taken.
    constraints: bool,
    /// Sorts may be made: an index is taken.
    makes: bool,
}

impl<'a> Call<'a> {
    fn new(memory: &'a Memory, question: Question) -> Call<'a> {
        let nodes = matches!(question, Question::Solve | Question::Unify(..));
        let makes = matches!(question, Question::Solve | Question::Join(..) | Question::Meet(..));
        Call { memory, question, nodes, constraints: question == Question::Solve, makes }
    }

    fn of_sorts(&self, passes: fn(&Memory) -> bool) -> bool {
        passes(self.memory)
    }

    fn of_nodes(&self, passes: fn(&Memory) -> bool) -> bool {
        !self.nodes || passes(self.memory)
    }

    fn of_constraints(&self, passes: fn(&Memory) -> bool) -> bool {
        !self.constraints || passes(self.memory)
    }

    fn of_making(&self, passes: fn(&Memory) -> bool) -> bool {
        !self.makes || passes(self.memory)
    }
}

type Passes = fn(&Call) -> bool;

/// Code and predicate, in checking order.
const CHECKS: [(u16, Passes); 13] = [
    (1, |call| call.of_sorts(sorts_fit) && call.of_nodes(nodes_fit) && call.of_constraints(constraints_fit)),
    (2, |call| call.of_sorts(fixed_six)),
    (3, |call| call.of_sorts(sorts_well_formed)),
    (4, |call| call.of_sorts(sorts_distinct)),
    (5, |call| call.of_nodes(nodes_well_formed)),
    (6, |call| call.of_nodes(bindings_name_places)),
    (7, |call| call.of_nodes(acyclic)),
    (8, |call| call.of_constraints(expressions_and_names)),
    (9, |call| call.of_constraints(constraints_well_formed)),
    (10, |call| call.of_constraints(keys_distinct)),
    (11, |call| call.of_constraints(measure_defined)),
    (12, |call| asked_about(call.memory, call.question)),
    (14, |call| {
        call.of_sorts(sort_storage_full)
            && call.of_nodes(node_storage_full)
            && call.of_constraints(outputs_full)
            && call.of_making(index_full)
    }),
];

// Check 1: counts against ceilings and lent lengths.

fn sorts_fit(m: &Memory) -> bool {
    m.sort_count <= MAX_SORTS.min(m.sorts.len() / ROW)
        && m.entry_count <= MAX_ENTRIES.min(m.sorts.len().saturating_sub(ENTRIES_AT))
}

fn nodes_fit(m: &Memory) -> bool {
    m.node_count <= MAX_NODES.min(m.nodes.len() / ROW)
        && m.node_entry_count <= MAX_NODE_ENTRIES.min(m.nodes.len().saturating_sub(NODE_ENTRIES_AT))
        && m.variable_count <= MAX_VARIABLES.min(m.bindings.len())
}

fn constraints_fit(m: &Memory) -> bool {
    m.expr_count <= MAX_EXPRESSIONS.min(m.exprs.len())
        && m.name_count <= m.names.len() / NAME
        && m.constraint_count <= MAX_CONSTRAINTS.min(m.constraints.len() / CONSTRAINT)
        && m.overload_count <= MAX_OVERLOADS.min(m.overloads.len() / OVERLOAD)
        && m.source_count <= MAX_SOURCES.min(m.sources.len())
}

// Checks 2 to 4: the sort list.

fn fixed_six(m: &Memory) -> bool {
    m.sort_count >= 6 && (kind::UNIT..=kind::REAL).all(|kind| m.sort(usize::from(kind)).kind == kind)
}

fn run_inside(row: Row, length: usize) -> bool {
    usize::from(row.start) + usize::from(row.count) <= length
}

fn sorts_well_formed(m: &Memory) -> bool {
    (0..m.sort_count).all(|number| sort_well_formed(m, number))
}

fn sort_well_formed(m: &Memory, number: usize) -> bool {
    let row = m.sort(number);
    let below = |part: u16| usize::from(part) < number;
    match row.kind {
        kind::UNIT..=kind::REAL | kind::DEF | kind::TYPE_VAR => true,
        kind::LIST..=kind::FBAG => below(row.part),
        kind::FUNCTION => {
            usize::from(row.count) <= MAX_ARGUMENTS
                && run_inside(row, m.entry_count)
                && below(row.part)
                && m.sort_arguments(row).iter().all(|&part| below(part))
        }
        _ => false,
    }
}

/// With parts numbered below, two sorts equal by structure exist exactly if two rows are equal in
/// kind and part numbers.
fn sorts_distinct(m: &Memory) -> bool {
    let mut seen = HashSet::new();
    (0..m.sort_count).all(|number| {
        let row = m.sort(number);
        let part = if row.kind <= kind::REAL { 0 } else { row.part };
        let arguments: &[u16] = if row.kind == kind::FUNCTION { m.sort_arguments(row) } else { &[] };
        seen.insert((row.kind, part, arguments))
    })
}

fn is_sort(m: &Memory, sort: u16) -> bool {
    usize::from(sort) < m.sort_count
}

// Checks 5 to 7: nodes and bindings.

/// Whether a word names a sort, or a node below `nodes`.
fn is_place_below(m: &Memory, word: u16, nodes: usize) -> bool {
    match Place::of(word) {
        Place::Sort(sort) => is_sort(m, sort),
        Place::Node(node) => usize::from(node) < nodes,
    }
}

fn is_place(m: &Memory, word: u16) -> bool {
    is_place_below(m, word, m.node_count)
}

fn nodes_well_formed(m: &Memory) -> bool {
    (0..m.node_count).all(|number| node_well_formed(m, number))
}

fn node_well_formed(m: &Memory, number: usize) -> bool {
    let row = m.node(number);
    let below = |part: u16| is_place_below(m, part, number);
    match row.kind {
        kind::LIST..=kind::FBAG => below(row.part),
        kind::FUNCTION => {
            usize::from(row.count) <= MAX_ARGUMENTS
                && run_inside(row, m.node_entry_count)
                && below(row.part)
                && m.node_arguments(row).iter().all(|&part| below(part))
        }
        kind::VARIABLE => usize::from(row.part) < m.variable_count,
        _ => false,
    }
}

fn bindings_name_places(m: &Memory) -> bool {
    m.bindings[..m.variable_count].iter().all(|&word| word == FREE || is_place(m, word))
}

/// No variable reaches itself through bindings and node parts. A walk that colours what it has
/// left, so shared parts are walked once.
fn acyclic(m: &Memory) -> bool {
    let mut walk = Walk { m, variables: vec![Colour::New; m.variable_count], nodes: vec![false; m.node_count] };
    (0..m.variable_count).all(|variable| walk.variable(variable))
}

#[derive(Clone, Copy, PartialEq)]
enum Colour {
    New,
    Open,
    Done,
}

struct Walk<'a> {
    m: &'a Memory,
    variables: Vec<Colour>,
    /// Nodes from which no cycle is reached. Node parts are lower, so only variables can be open.
    nodes: Vec<bool>,
}

impl Walk<'_> {
    fn variable(&mut self, variable: usize) -> bool {
        match self.variables[variable] {
            Colour::Done => return true,
            Colour::Open => return false,
            Colour::New => {}
        }
        self.variables[variable] = Colour::Open;
        let word = self.m.bindings[variable];
        let passes = word == FREE || self.place(word);
        self.variables[variable] = Colour::Done;
        passes
    }

    fn place(&mut self, word: u16) -> bool {
        let Place::Node(node) = Place::of(word) else { return true };
        let node = usize::from(node);
        if self.nodes[node] {
            return true;
        }
        let m = self.m;
        let row = m.node(node);
        let passes = match row.kind {
            kind::VARIABLE => self.variable(usize::from(row.part)),
            kind::FUNCTION => {
                m.node_arguments(row).iter().all(|&argument| self.place(argument)) && self.place(row.part)
            }
            _ => self.place(row.part),
        };
        self.nodes[node] = passes;
        passes
    }
}

// Checks 8 to 11: expressions, base names, constraints.

fn target_named(m: &Memory, kind: u16, sort: u16) -> bool {
    match kind {
        target::VARIABLE | target::BUILTIN => true,
        target::OP => is_sort(m, sort),
        _ => false,
    }
}

fn is_expression(m: &Memory, expression: u16) -> bool {
    usize::from(expression) < m.expr_count
}

fn expressions_and_names(m: &Memory) -> bool {
    m.exprs[..m.expr_count].iter().all(|&word| is_place(m, word))
        && (0..m.name_count).all(|index| {
            let name = m.name(index);
            is_expression(m, name[0]) && target_named(m, name[1], name[2])
        })
}

fn constraints_well_formed(m: &Memory) -> bool {
    m.constraints().all(|row| constraint_well_formed(m, row))
}

fn constraint_well_formed(m: &Memory, row: &[u16]) -> bool {
    match row[0] {
        constraint::SUB => is_place(m, row[1]) && is_place(m, row[2]),
        constraint::LIT => is_place(m, row[1]) && row[2] <= literal::NATURAL,
        constraint::DISJUNCTION => {
            is_expression(m, row[1])
                && is_place(m, row[2])
                && run(row[3], row[4], m.overload_count)
                    .is_some_and(|mut run| run.all(|index| overload_well_formed(m, m.overload(index))))
        }
        constraint::COMPREHENSION => is_place(m, row[1]) && is_place(m, row[2]) && is_sort(m, row[3]),
        constraint::JOIN => {
            is_place(m, row[1])
                && run(row[2], row[3], m.source_count)
                    .is_some_and(|mut run| run.all(|index| is_place(m, m.sources[index])))
        }
        _ => false,
    }
}

fn overload_well_formed(m: &Memory, overload: &[u16]) -> bool {
    target_named(m, overload[0], overload[1]) && is_place(m, overload[2])
}

/// The indices of a run, if it lies inside a list of `length` rows.
fn run(start: u16, count: u16, length: usize) -> Option<std::ops::Range<usize>> {
    let end = usize::from(start) + usize::from(count);
    (end <= length).then_some(usize::from(start)..end)
}

fn keys_distinct(m: &Memory) -> bool {
    let mut disjunctions = HashSet::new();
    let mut names = HashSet::new();
    m.constraints().filter(|row| row[0] == constraint::DISJUNCTION).all(|row| disjunctions.insert(row[1]))
        && (0..m.name_count).all(|index| names.insert(m.name(index)[0]))
}

fn measure_defined(m: &Memory) -> bool {
    m.constraints().all(|row| row[0] != constraint::JOIN || row[3] > 0) && m.components() <= MAX_COMPONENTS
}

// Checks 12 and 14.

/// The default sort of a search; the sorts or places of another question.
fn asked_about(m: &Memory, question: Question) -> bool {
    match question {
        Question::Solve => is_sort(m, m.default),
        Question::Unify(lhs, rhs) => is_place(m, lhs) && is_place(m, rhs),
        Question::PartialCmp(lhs, rhs)
        | Question::Join(lhs, rhs)
        | Question::Meet(lhs, rhs)
        | Question::WideningDistance(lhs, rhs)
        | Question::IsMaterializable(lhs, rhs) => is_sort(m, lhs) && is_sort(m, rhs),
    }
}

fn sort_storage_full(m: &Memory) -> bool {
    m.sorts.len() >= SORT_STORAGE
}

fn node_storage_full(m: &Memory) -> bool {
    m.nodes.len() >= NODE_STORAGE
}

fn index_full(m: &Memory) -> bool {
    m.index >= INDEX
}

fn outputs_full(m: &Memory) -> bool {
    m.scratch >= SCRATCH
        && m.out_typing >= 3 * m.expr_count
        && m.out_measure >= m.components()
        && m.out_choices >= 2 * m.disjunctions()
}
