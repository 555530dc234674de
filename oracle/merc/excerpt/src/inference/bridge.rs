//! Puts constraints into a [Solver], runs it, and reads `best` as `infer` reads it.

use std::collections::HashMap;

use lists::memory::Memory;
use lists::memory::constraint;
use lists::memory::literal;
use lists::memory::target;
use lists::verdict::Verdict;

use super::Comprehension;
use super::Constraint;
use super::Disjunction;
use super::ExprId;
use super::Join;
use super::LitConstraint;
use super::LitKind;
use super::NameTarget;
use super::Solver;
use super::SubConstraint;
use crate::InferSortId;
use crate::ResolvedSortId;
use crate::SortInterner;
use crate::Unifier;
use crate::resolved_sort::bridge::number;
use crate::resolved_sort::bridge::sort_id;
use crate::unification::bridge::node_id;

/// Constraints, expressions and base names of an accepted list.
pub(crate) struct Problem {
    constraints: Vec<Constraint>,
    expr_sorts: Vec<InferSortId>,
    base_names: HashMap<ExprId, NameTarget>,
    default_sort: ResolvedSortId,
}

/// Reads the lists beside sorts, nodes and bindings.
pub(crate) fn load(memory: &Memory) -> Problem {
    Problem {
        constraints: memory.constraints().map(|row| constraint(memory, row)).collect(),
        expr_sorts: memory.exprs[..memory.expr_count].iter().map(|&word| node_id(memory, word)).collect(),
        base_names: base_names(memory),
        default_sort: sort_id(memory.default),
    }
}

pub(crate) fn solve(sorts: &mut SortInterner, unifier: &mut Unifier, problem: &Problem) -> Verdict {
    let mut solver = Solver {
        sorts,
        unifier,
        constraints: &problem.constraints,
        expr_sorts: &problem.expr_sorts,
        base_names: &problem.base_names,
        choices: Vec::new(),
        measure: Vec::new(),
        best: None,
        default_sort: problem.default_sort,
    };
    solver.solve(0);
    assert!(solver.measure.is_empty() && solver.choices.is_empty(), "the solver unwinds its measure and choice stacks");
    match solver.best {
        None => Verdict::NoTyping,
        Some(best) if best.duplicate => Verdict::Ambiguous { measure: best.measure },
        Some(best) => {
            let (sorts, names) = best.typing.expect("a leaf always yields a typing");
            Verdict::Typing {
                sorts: sorts.into_iter().map(number).collect(),
                names: name_rows(&names, problem.expr_sorts.len()),
                measure: best.measure,
            }
        }
    }
}

fn name_target(kind: u16, sort: u16) -> NameTarget {
    match kind {
        target::VARIABLE => NameTarget::Variable,
        target::OP => NameTarget::Op { sort: sort_id(sort) },
        target::BUILTIN => NameTarget::Builtin,
        kind => panic!("an accepted list has no name target of kind {kind}"),
    }
}

fn base_names(memory: &Memory) -> HashMap<ExprId, NameTarget> {
    let rows = (0..memory.name_count).map(|index| memory.name(index));
    rows.map(|name| (ExprId::new(usize::from(name[0])), name_target(name[1], name[2]))).collect()
}

fn name_rows(names: &HashMap<ExprId, NameTarget>, expressions: usize) -> Vec<(u16, u16)> {
    (0..expressions)
        .map(|expression| match names.get(&ExprId::new(expression)) {
            None => (target::NONE, 0),
            Some(NameTarget::Variable) => (target::VARIABLE, 0),
            Some(NameTarget::Op { sort }) => (target::OP, number(*sort)),
            Some(NameTarget::Builtin) => (target::BUILTIN, 0),
        })
        .collect()
}

fn constraint(memory: &Memory, row: &[u16]) -> Constraint {
    let place = |index: usize| node_id(memory, row[index]);
    match row[0] {
        constraint::SUB => Constraint::Sub(SubConstraint { lhs: place(1), rhs: place(2) }),
        constraint::LIT => Constraint::Lit(LitConstraint { sort: place(1), kind: literal_kind(row[2]) }),
        constraint::DISJUNCTION => Constraint::Disjunction(Disjunction {
            expr: ExprId::new(usize::from(row[1])),
            sort: place(2),
            disjuncts: run(row[3], row[4]).map(|index| disjunct(memory, index)).collect(),
        }),
        constraint::COMPREHENSION => {
            Constraint::Comprehension(Comprehension { body: place(1), node: place(2), element: sort_id(row[3]) })
        }
        constraint::JOIN => Constraint::Join(Join {
            sources: run(row[2], row[3]).map(|index| node_id(memory, memory.sources[index])).collect(),
            target: place(1),
        }),
        kind => panic!("an accepted list has no constraint of kind {kind}"),
    }
}

fn literal_kind(kind: u16) -> LitKind {
    match kind {
        literal::POSITIVE => LitKind::Positive,
        _ => LitKind::Natural,
    }
}

fn disjunct(memory: &Memory, index: usize) -> (NameTarget, InferSortId) {
    let overload = memory.overload(index);
    (name_target(overload[0], overload[1]), node_id(memory, overload[2]))
}

fn run(start: u16, count: u16) -> std::ops::Range<usize> {
    usize::from(start)..usize::from(start) + usize::from(count)
}
