//! Problems that take the most stack, of the shapes for which that was measured, solved by threads that have what a thread
//! of Rust has by default, or less.

use std::thread;

use julqetai::ComplexSort;
use julqetai::Node;
use julqetai::Place;
use julqetai::Problem;
use julqetai::Refusal;
use julqetai::Sort;
use julqetai::SortId;
use julqetai::Workspace;

/// How many rows of each kind a problem has.
#[derive(Clone, Copy, Debug)]
struct Size {
    /// Comprehensions whose third reading is the one.
    comprehensions: usize,
    /// Widenings over three steps.
    subs: usize,
    /// Sources of a Join that is solved one after another, over three steps each.
    sources: usize,
    /// Nodes, each over the one before, as the sort of an expression.
    nested: usize,
    /// Sorts, each over the one before, that are compared with each other.
    sorts: usize,
    /// Function nodes without arguments, each with the one before as its range and the innermost over Pos, as the left
    /// side of a widening into Real: their wider sorts are looked for.
    ranges: usize,
    /// Sorts, each over the one before, and nodes, each over the one before and the innermost over the last of these
    /// sorts: the outermost node is made equal to the one inside it, which differs only at the end of all.
    against: [usize; 2],
}

const NONE: Size = Size { comprehensions: 0, subs: 0, sources: 0, nested: 0, sorts: 0, ranges: 0, against: [0, 0] };

fn problem(size: Size, functions: bool) -> Problem {
    let mut problem = Problem::new();
    let bag = problem.add_sort(Sort::Container { op: ComplexSort::Bag, subsort: SortId::NAT });
    for _ in 0..size.comprehensions {
        problem.comprehension(SortId::POS, bag, SortId::NAT);
    }
    for _ in 0..size.subs {
        problem.sub(SortId::POS, SortId::REAL);
    }
    if size.sources > 0 {
        problem.join(&vec![Place::Sort(SortId::POS); size.sources], SortId::REAL);
    }
    let (_, var) = problem.fresh_var();
    let mut place = Place::Node(var);
    for _ in 0..size.nested {
        let list = Node::Generic { op: ComplexSort::List, subsort: place };
        let function = Node::Function { domain: &[place], range: SortId::BOOL.into() };
        place = problem.add_node(if functions { function } else { list }).into();
    }
    problem.add_expr(place);
    let [pos, nat] = [SortId::POS, SortId::NAT].map(|mut sort| {
        for _ in 0..size.sorts / 2 {
            sort = problem.add_sort(Sort::Function { domain: &[sort], range: SortId::BOOL });
        }
        sort
    });
    if size.sorts > 0 {
        let (_, join) = problem.fresh_var();
        problem.join(&[pos.into(), nat.into()], join);
    }
    if size.ranges > 0 {
        let mut place = Place::Sort(SortId::POS);
        for _ in 0..size.ranges {
            place = problem.add_node(Node::Function { domain: &[], range: place }).into();
        }
        problem.sub(place, SortId::REAL);
    }
    let [sorts, nodes] = size.against;
    if nodes > 0 {
        let mut sort = SortId::BOOL;
        for _ in 0..sorts {
            let list = Sort::Container { op: ComplexSort::List, subsort: sort };
            let function = Sort::Function { domain: &[sort], range: SortId::BOOL };
            sort = problem.add_sort(if functions { function } else { list });
        }
        let (mut place, mut inside) = (Place::Sort(sort), Place::Sort(sort));
        for _ in 0..nodes {
            let list = Node::Generic { op: ComplexSort::List, subsort: place };
            let function = Node::Function { domain: &[place], range: SortId::BOOL.into() };
            inside = place;
            place = problem.add_node(if functions { function } else { list }).into();
        }
        problem.sub(place, inside);
    }
    problem
}

/// Solves each by a thread that has so much stack, of which the workspace may use `spare`.
fn solve_all(problems: Vec<(Size, Problem)>, stack: usize, spare: usize) {
    let solve = move || {
        let mut workspace = Workspace::new();
        workspace.set_stack(spare);
        for (size, problem) in problems {
            let code = workspace.solve(&problem).map_or_else(Refusal::code, |_| 0);
            assert!(matches!(code, 0 | 15 | 16 | 17), "{code} for {size:?}");
        }
    };
    thread::Builder::new().stack_size(stack).spawn(solve).expect("a thread can be had").join().expect("all are solved");
}

/// The shapes at the ceilings.
fn at_ceilings() -> Vec<(Size, Problem)> {
    let sizes = [
        Size { comprehensions: 255, sources: 256, nested: 2_047, ..NONE },
        Size { subs: 256, nested: 2_047, ..NONE },
        Size { sources: 256, nested: 2_047, ..NONE },
        Size { comprehensions: 255, sorts: 1_016, ..NONE },
        Size { comprehensions: 250, sources: 250, nested: 1_000, sorts: 1_016, ..NONE },
        Size { comprehensions: 254, sources: 255, ranges: 2_047, ..NONE },
        Size { comprehensions: 254, sources: 255, against: [1_016, 2_047], ..NONE },
    ];
    let both = |size: Size| [false, true].map(|functions| (size, problem(size, functions)));
    sizes.into_iter().flat_map(both).collect()
}

/// At the ceilings, in a thread of the default size: they run elsewhere.
#[test]
fn ceilings() {
    solve_all(at_ceilings(), 2 << 20, 1 << 20);
}

/// At the ceilings, on a stack that has no more than the documents say that a search takes: 2.8 MB, and the workspace.
#[test]
fn no_more_than_measured() {
    solve_all(at_ceilings(), 2_800 << 10, 64 << 20);
}

/// Of all sizes, in a thread that has 1 MB and a little: the larger ones run elsewhere, the others take no more.
#[test]
fn on_the_stack_of_the_caller() {
    let mut problems = Vec::new();
    for (levels, nesting) in (0..=16).flat_map(|levels| (0..=8).map(move |nesting| (15 * levels, 255 * nesting))) {
        let sizes = [
            Size { comprehensions: levels, nested: nesting, ..NONE },
            Size { subs: levels, nested: nesting, ..NONE },
            Size { sources: levels, nested: nesting, ..NONE },
            Size { comprehensions: levels, sources: levels, nested: nesting, ..NONE },
            Size { comprehensions: levels, sorts: nesting * 2 / 5, ..NONE },
            Size { comprehensions: levels, sources: levels, ranges: nesting, ..NONE },
            Size { comprehensions: levels, sources: levels, against: [nesting * 2 / 5, nesting], ..NONE },
        ];
        let both = |size: Size| [false, true].map(|functions| (size, problem(size, functions)));
        problems.extend(sizes.into_iter().flat_map(both));
    }
    solve_all(problems, (1 << 20) + (64 << 10), 1 << 20);
}
