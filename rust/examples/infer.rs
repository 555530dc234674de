//! How merc's `infer` would call the proved solver in place of `Solver::solve(0)`.
//!
//!     cargo run --example infer
//!
//! The module `merc` has the types of merc's inference.rs, unification.rs and resolved_sort.rs that the solver meets, cut
//! to what is needed here. [problem] puts them into a [Problem], [solve] stands where `solver.solve(0)` stands.

use std::collections::HashMap;

use julqetai::Overload;
use julqetai::Place;
use julqetai::Problem;
use julqetai::Refusal;
use julqetai::SortVar;
use julqetai::Workspace;

use merc::*;

/// merc's own types, by their names. Ids are indices there too.
#[allow(dead_code)]
mod merc {
    use std::collections::HashMap;

    pub use julqetai::ComplexSort;
    pub use julqetai::ExprId;
    pub use julqetai::LitKind;
    pub use julqetai::NameTarget;
    pub use julqetai::SortId as ResolvedSortId;

    /// In merc the arena of the `SortInterner`, whose first six sorts are the fixed six.
    #[derive(Clone, Debug, PartialEq)]
    pub enum ResolvedSort {
        Unit,
        Bool,
        Pos,
        Nat,
        Int,
        Real,
        Container { op: ComplexSort, subsort: ResolvedSortId },
        Function { domain: Vec<ResolvedSortId>, range: ResolvedSortId },
        Def(u16),
        TypeVar(u16),
    }

    #[derive(Clone, Copy)]
    pub struct InferSortId(pub usize);

    pub enum InferSort {
        Resolved(ResolvedSortId),
        Generic { op: ComplexSort, subsort: InferSortId },
        Function { domain: Vec<InferSortId>, range: InferSortId },
        Var(u16),
    }

    /// In merc the bindings are in a table of `ena`; here one for each variable.
    pub struct Unifier {
        pub arena: Vec<InferSort>,
        pub bindings: Vec<Option<InferSortId>>,
    }

    pub enum Constraint {
        Sub { lhs: InferSortId, rhs: InferSortId },
        Lit { sort: InferSortId, kind: LitKind },
        Disjunction { expr: ExprId, sort: InferSortId, disjuncts: Vec<(NameTarget, InferSortId)> },
        Comprehension { body: InferSortId, node: InferSortId, element: ResolvedSortId },
        Join { sources: Vec<InferSortId>, target: InferSortId },
    }

    /// What `infer` reads of `solver.best`.
    #[derive(Debug)]
    pub struct Candidate {
        pub measure: Vec<u8>,
        pub sorts: Vec<ResolvedSortId>,
        pub names: HashMap<ExprId, NameTarget>,
    }

    #[derive(Debug)]
    pub enum InferenceError {
        NoTyping,
        AmbiguousExpression,
        /// Not in merc: the equation has more sorts, nodes or constraints than the solver takes, or the generator has
        /// handed out a number that names nothing.
        Refused(julqetai::Refusal),
    }
}

/// Everything that merc's `Solver` borrows.
struct Equation<'a> {
    unifier: &'a Unifier,
    constraints: &'a [Constraint],
    expr_sorts: &'a [InferSortId],
    base_names: &'a HashMap<ExprId, NameTarget>,
    default_sort: ResolvedSortId,
}

fn sort(sort: &ResolvedSort) -> julqetai::Sort<'_> {
    match *sort {
        ResolvedSort::Unit => julqetai::Sort::Unit,
        ResolvedSort::Bool => julqetai::Sort::Bool,
        ResolvedSort::Pos => julqetai::Sort::Pos,
        ResolvedSort::Nat => julqetai::Sort::Nat,
        ResolvedSort::Int => julqetai::Sort::Int,
        ResolvedSort::Real => julqetai::Sort::Real,
        ResolvedSort::Container { op, subsort } => julqetai::Sort::Container { op, subsort },
        ResolvedSort::Function { ref domain, range } => julqetai::Sort::Function { domain, range },
        ResolvedSort::Def(number) => julqetai::Sort::Def(number),
        ResolvedSort::TypeVar(number) => julqetai::Sort::TypeVar(number),
    }
}

/// The equation as a problem. Sorts keep their numbers. A Resolved node is no node here but the sort itself, so the other
/// nodes get numbers of their own; a part stands before what it is a part of, as in merc's arena.
fn problem(sorts: &[ResolvedSort], equation: &Equation) -> Result<Problem, Refusal> {
    let mut problem = Problem::bare();
    for resolved in sorts {
        problem.add_sort(sort(resolved));
    }
    for _ in &equation.unifier.bindings {
        problem.add_var();
    }
    let mut places: Vec<Place> = Vec::new();
    for node in &equation.unifier.arena {
        let place = match node {
            InferSort::Resolved(sort) => Place::Sort(*sort),
            InferSort::Generic { op, subsort } => {
                problem.add_node(julqetai::Node::Generic { op: *op, subsort: places[subsort.0] }).into()
            }
            InferSort::Function { domain, range } => {
                let domain: Vec<Place> = domain.iter().map(|part| places[part.0]).collect();
                problem.add_node(julqetai::Node::Function { domain: &domain, range: places[range.0] }).into()
            }
            InferSort::Var(var) => problem.add_node(julqetai::Node::Var(SortVar(*var))).into(),
        };
        places.push(place);
    }
    let place = |id: InferSortId| places[id.0];
    for (var, bound) in (0..).zip(&equation.unifier.bindings) {
        if let Some(bound) = bound {
            problem.bind(SortVar(var), place(*bound))?;
        }
    }
    for id in equation.expr_sorts {
        problem.add_expr(place(*id));
    }
    for (expr, target) in equation.base_names {
        problem.add_name(*expr, *target);
    }
    for constraint in equation.constraints {
        match constraint {
            Constraint::Sub { lhs, rhs } => problem.sub(place(*lhs), place(*rhs)),
            Constraint::Lit { sort, kind } => problem.lit(place(*sort), *kind),
            Constraint::Disjunction { expr, sort, disjuncts } => {
                let overload =
                    |(target, sort): &(NameTarget, InferSortId)| Overload { target: *target, sort: place(*sort) };
                let disjuncts: Vec<Overload> = disjuncts.iter().map(overload).collect();
                problem.disjunction(*expr, place(*sort), &disjuncts);
            }
            Constraint::Comprehension { body, node, element } => {
                problem.comprehension(place(*body), place(*node), *element)
            }
            Constraint::Join { sources, target } => {
                let sources: Vec<Place> = sources.iter().map(|source| place(*source)).collect();
                problem.join(&sources, place(*target));
            }
        }
    }
    problem.set_default(equation.default_sort);
    Ok(problem)
}

/// Stands for `solver.solve(0)` and the match on `solver.best` after it.
fn solve(
    workspace: &mut Workspace,
    sorts: &mut Vec<ResolvedSort>,
    equation: &Equation,
) -> Result<Candidate, InferenceError> {
    let problem = problem(sorts, equation).map_err(InferenceError::Refused)?;
    let solved = workspace.solve(&problem).map(|typing| {
        let names = (0..).map(ExprId).zip(typing.names()).filter_map(|(expr, name)| Some((expr, name?)));
        Candidate {
            measure: typing.measure().iter().map(|&component| component as u8).collect(),
            sorts: typing.sorts().collect(),
            names: names.collect(),
        }
    });
    // What merc's interner would have made on the way, whether there is a typing or not.
    for (_, new) in workspace.new_sorts() {
        sorts.push(match new {
            julqetai::Sort::Container { op, subsort } => ResolvedSort::Container { op, subsort },
            julqetai::Sort::Function { domain, range } => ResolvedSort::Function { domain: domain.to_vec(), range },
            other => unreachable!("the search makes containers and functions, not {other:?}"),
        });
    }
    solved.map_err(|refusal| match refusal {
        Refusal::NoTyping => InferenceError::NoTyping,
        Refusal::Ambiguous => InferenceError::AmbiguousExpression,
        other => InferenceError::Refused(other),
    })
}

fn show(what: &str, solved: Result<Candidate, InferenceError>) {
    match solved {
        Ok(Candidate { measure, sorts, names }) => {
            let sorts: Vec<String> = sorts.iter().map(ResolvedSortId::to_string).collect();
            println!("{what}: sorts {}, measure {measure:?}, names {names:?}", sorts.join(" "));
        }
        Err(error) => println!("{what}: {error:?}"),
    }
}

fn main() {
    use ResolvedSort::*;
    let mut sorts = vec![Unit, Bool, Pos, Nat, Int, Real];
    sorts.push(Container { op: ComplexSort::Set, subsort: ResolvedSortId::NAT });
    let mut workspace = Workspace::new();

    // FSet(v) widens into Set(Nat): v is Nat, at a distance of 1.
    let arena = vec![
        InferSort::Var(0),
        InferSort::Generic { op: ComplexSort::FSet, subsort: InferSortId(0) },
        InferSort::Resolved(ResolvedSortId(6)),
    ];
    let finite_set = Equation {
        unifier: &Unifier { arena, bindings: vec![None] },
        constraints: &[Constraint::Sub { lhs: InferSortId(1), rhs: InferSortId(2) }],
        expr_sorts: &[InferSortId(0), InferSortId(1)],
        base_names: &HashMap::new(),
        default_sort: ResolvedSortId::BOOL,
    };
    show("v and FSet(v), FSet(v) to Set(Nat)", solve(&mut workspace, &mut sorts, &finite_set));
    println!("made on the way: s7 is {:?}", sorts[7]);

    // A name with two overloads, first alone, then where a Nat is wanted.
    let arena =
        vec![InferSort::Var(0), InferSort::Resolved(ResolvedSortId::NAT), InferSort::Resolved(ResolvedSortId::POS)];
    let op = |sort: ResolvedSortId, node: usize| (NameTarget::Op { sort }, InferSortId(node));
    let disjuncts = vec![op(ResolvedSortId::NAT, 1), op(ResolvedSortId::POS, 2)];
    let constraints = [
        Constraint::Disjunction { expr: ExprId(0), sort: InferSortId(0), disjuncts },
        Constraint::Sub { lhs: InferSortId(0), rhs: InferSortId(1) },
    ];
    let unifier = Unifier { arena, bindings: vec![None] };
    for count in [1, 2] {
        let name = Equation {
            unifier: &unifier,
            constraints: &constraints[..count],
            expr_sorts: &[InferSortId(0)],
            base_names: &HashMap::new(),
            default_sort: ResolvedSortId::BOOL,
        };
        let wanted = if count == 1 { "alone" } else { "to Nat" };
        show(&format!("Nat or Pos, {wanted}"), solve(&mut workspace, &mut sorts, &name));
    }
}
