//! A problem in the text format of docs/FORMAT.md.

use std::fmt;
use std::fmt::Formatter;

use crate::ExprId;
use crate::NameTarget;
use crate::Place;
use crate::Problem;
use crate::Sort;
use crate::SortId;
use crate::SortVar;
use crate::numbers::FREE;
use crate::sort::ComplexSort;
use crate::sort::kind;

/// How many sources stand on a line, so that none is above 200 bytes.
const SOURCES: usize = 20;

/// A list of docs/FORMAT.md. Of a sort or node with more than 16 arguments the line may be too long to be read.
impl fmt::Display for Problem {
    fn fmt(&self, f: &mut Formatter<'_>) -> fmt::Result {
        f.write_str("list\n")?;
        sorts(self, f)?;
        nodes(self, f)?;
        for (var, &place) in self.bindings.iter().enumerate().filter(|(_, place)| **place != FREE) {
            writeln!(f, "bind v{var} {}", Place::of(place))?;
        }
        for (expr, &place) in self.exprs.iter().enumerate() {
            writeln!(f, "expr e{expr} {}", Place::of(place))?;
        }
        for &[expr, kind, sort] in &self.names {
            writeln!(f, "name {} {}", ExprId(expr), Target(kind, sort))?;
        }
        if self.default != SortId::BOOL {
            writeln!(f, "default {}", self.default)?;
        }
        self.constraints.iter().try_for_each(|row| constraint(self, row, f))
    }
}

struct Target(u16, u16);

impl fmt::Display for Target {
    fn fmt(&self, f: &mut Formatter<'_>) -> fmt::Result {
        match NameTarget::of(self.0, self.1) {
            Some(NameTarget::Variable) => f.write_str("variable"),
            Some(NameTarget::Op { sort }) => write!(f, "op {sort}"),
            Some(NameTarget::Builtin) => f.write_str("builtin"),
            None => f.write_str("none"),
        }
    }
}

fn sorts(problem: &Problem, f: &mut Formatter<'_>) -> fmt::Result {
    let fixed = [Sort::Unit, Sort::Bool, Sort::Pos, Sort::Nat, Sort::Int, Sort::Real];
    let given = |index: usize| problem.sorts.get(index);
    let first = match (0..fixed.len()).all(|index| given(index) == Some(fixed[index])) {
        true => fixed.len(),
        false => 0,
    };
    if first == 0 {
        f.write_str("bare\n")?;
    }
    for (number, sort) in (first..problem.sort_count()).filter_map(|number| Some((number, given(number)?))) {
        write!(f, "sort s{number}")?;
        match sort {
            Sort::Unit => f.write_str(" unit")?,
            Sort::Bool | Sort::Pos | Sort::Nat | Sort::Int | Sort::Real => write!(f, " {sort:?}")?,
            Sort::Container { op, subsort } => write!(f, " {op:?} {subsort}")?,
            Sort::Function { domain, range } => function(domain, range, f)?,
            Sort::Def(number) => write!(f, " Def {number}")?,
            Sort::TypeVar(number) => write!(f, " TypeVar {number}")?,
        }
        f.write_str("\n")?;
    }
    Ok(())
}

fn function<T: fmt::Display>(domain: &[T], range: T, f: &mut Formatter<'_>) -> fmt::Result {
    f.write_str(" fn")?;
    domain.iter().try_for_each(|argument| write!(f, " {argument}"))?;
    write!(f, " -> {range}")
}

/// Nodes, and the variables: each with its node where that is the next one.
fn nodes(problem: &Problem, f: &mut Formatter<'_>) -> fmt::Result {
    let variables = problem.bindings.len();
    let mut next = 0;
    for (number, &[row, part, start, count]) in problem.nodes.iter().enumerate() {
        match row {
            kind::VARIABLE if usize::from(part) == next && next < variables => {
                writeln!(f, "var v{next} n{number}")?;
                next += 1;
                continue;
            }
            kind::VARIABLE => write!(f, "node n{number} var {}", SortVar(part))?,
            kind::FUNCTION => {
                write!(f, "node n{number}")?;
                let domain = problem.node_entries.iter().skip(start.into()).take(count.into());
                function(&domain.map(|&place| Place::of(place)).collect::<Vec<_>>(), Place::of(part), f)?;
            }
            kind => match ComplexSort::of(kind) {
                Some(op) => write!(f, "node n{number} {op:?} {}", Place::of(part))?,
                None => write!(f, "node n{number} raw {kind} {part} {start} {count}")?,
            },
        }
        f.write_str("\n")?;
    }
    match variables - next {
        0 => Ok(()),
        left => writeln!(f, "vars {left}"),
    }
}

fn constraint(problem: &Problem, row: &[u16; 5], f: &mut Formatter<'_>) -> fmt::Result {
    let place = |index: usize| Place::of(row[index]);
    match row[0] {
        0 => writeln!(f, "sub {} {}", place(1), place(2)),
        1 => writeln!(f, "lit {} {}", place(1), if row[2] == 0 { "positive" } else { "natural" }),
        2 => {
            writeln!(f, "disjunction {} {}", ExprId(row[1]), place(2))?;
            problem.overloads.iter().skip(row[3].into()).take(row[4].into()).try_for_each(|overload| {
                let target = Target(overload.target.kind, overload.target.sort);
                writeln!(f, "  overload {target} {}", Place::of(overload.sort))
            })
        }
        3 => writeln!(f, "comprehension {} {} {}", place(1), place(2), SortId(row[3])),
        _ => {
            write!(f, "join {}", place(1))?;
            for (index, &source) in problem.sources.iter().skip(row[2].into()).take(row[3].into()).enumerate() {
                if index > 0 && index % SOURCES == 0 {
                    f.write_str("\n  sources")?;
                }
                write!(f, " {}", Place::of(source))?;
            }
            f.write_str("\n")
        }
    }
}
