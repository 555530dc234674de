//! A problem for each refusal. 14 cannot be had by a workspace, which lends enough; `src/call.rs` has a test for it.

use julqetai::ComplexSort;
use julqetai::ExprId;
use julqetai::LitKind;
use julqetai::NameTarget;
use julqetai::Node;
use julqetai::NodeId;
use julqetai::Overload;
use julqetai::Place;
use julqetai::Problem;
use julqetai::Refusal;
use julqetai::Sort;
use julqetai::SortId;
use julqetai::SortVar;
use julqetai::Workspace;

/// The code of a problem that has no typing, or 0.
fn code(problem: &Problem) -> u8 {
    Workspace::new().solve(problem).map_or_else(Refusal::code, |_| 0)
}

/// The code of a problem that a function makes of the empty one.
fn code_of(build: impl FnOnce(&mut Problem)) -> u8 {
    let mut problem = Problem::new();
    build(&mut problem);
    code(&problem)
}

#[test]
fn codes_and_words() {
    let codes = Refusal::ALL.map(Refusal::code);
    assert_eq!(codes, [1, 2, 3, 4, 5, 6, 7, 8, 9, 10, 11, 12, 14, 15, 16, 17, 18]);
    for code in 0..=u8::MAX {
        assert_eq!(Refusal::from_code(code).map(Refusal::code), codes.contains(&code).then_some(code));
    }
    let mut words = Refusal::ALL.map(|refusal| refusal.to_string());
    assert!(words.iter().all(|text| text.len() > 20));
    words.sort();
    assert!(words.windows(2).all(|pair| pair[0] != pair[1]));
    let searched = Refusal::ALL.map(Refusal::is_searched);
    assert_eq!(searched.iter().filter(|searched| **searched).count(), 2);
}

/// Each list at its ceiling is accepted, and one above it refused.
#[test]
fn too_many() {
    let function = |count: usize| vec![SortId::BOOL; count];
    type Add = fn(&mut Problem, usize);
    let adders: [(&str, usize, Add); 7] = [
        ("sorts", 1_018, |problem, index| _ = problem.add_sort(Sort::Def(index as u16))),
        ("nodes", 2_048, |problem, _| {
            problem.add_node(Node::Generic { op: ComplexSort::List, subsort: SortId::BOOL.into() });
        }),
        ("variables", 512, |problem, _| _ = problem.add_var()),
        ("expressions", 512, |problem, _| _ = problem.add_expr(SortId::BOOL)),
        ("constraints", 256, |problem, _| problem.lit(SortId::NAT, LitKind::Natural)),
        ("constraints without components", 256, |problem, _| {
            let (_, node) = problem.fresh_var();
            problem.comprehension(SortId::BOOL, node, SortId::BOOL);
        }),
        ("sources", 255, |problem, index| {
            if index == 0 {
                problem.join(&[SortId::NAT.into()], SortId::NAT);
            }
            problem.join(&[SortId::NAT.into()], SortId::NAT);
        }),
    ];
    for (what, ceiling, add) in adders {
        let problem = |count: usize| {
            let mut problem = Problem::new();
            (0..count).for_each(|index| add(&mut problem, index));
            problem
        };
        assert_eq!(code(&problem(ceiling)), 0, "{ceiling} {what}");
        assert_eq!(code(&problem(ceiling + 1)), 1, "{} {what}", ceiling + 1);
    }
    for (arguments, expected) in [(4_096, 0), (4_097, 1)] {
        let sorts = code_of(|problem| {
            for index in 0..arguments / 16 {
                let range = problem.add_sort(Sort::Def(index as u16));
                problem.add_sort(Sort::Function { domain: &function(16), range });
            }
            problem.add_sort(Sort::Function { domain: &function(arguments % 16), range: SortId::BOOL });
        });
        assert_eq!(sorts, expected, "{arguments} arguments of sorts");
        let nodes = code_of(|problem| {
            for count in std::iter::repeat_n(16, arguments / 16).chain([arguments % 16]) {
                let domain = vec![Place::Sort(SortId::BOOL); count];
                problem.add_node(Node::Function { domain: &domain, range: SortId::BOOL.into() });
            }
        });
        assert_eq!(nodes, expected, "{arguments} arguments of nodes");
    }
    for (overloads, expected) in [(1_024, 18), (1_025, 1)] {
        let found = code_of(|problem| {
            let expr = problem.add_expr(SortId::NAT);
            problem.disjunction(expr, SortId::NAT, &vec![Overload::op(SortId::NAT); overloads]);
        });
        assert_eq!(found, expected, "{overloads} overloads");
    }
}

/// Lists so long that no word has the number of their rows.
#[test]
fn far_too_many() {
    let many = 70_000;
    let sorts = code_of(|problem| {
        for _ in 0..many {
            problem.add_sort(Sort::Unit);
        }
        assert_eq!(problem.add_sort(Sort::Bool), SortId(u16::MAX));
    });
    let nodes = code_of(|problem| {
        for _ in 0..many {
            problem.fresh_var();
        }
        assert_eq!(problem.fresh_var(), (SortVar(u16::MAX), NodeId(u16::MAX)));
    });
    let exprs = code_of(|problem| {
        for _ in 0..many {
            problem.add_expr(SortId::BOOL);
        }
        assert_eq!(problem.add_expr(SortId::BOOL), ExprId(u16::MAX));
    });
    let arguments = code_of(|problem| {
        let domain = vec![SortId::BOOL; many];
        for _ in 0..2 {
            problem.add_sort(Sort::Function { domain: &domain, range: SortId::BOOL });
        }
    });
    let node_arguments = code_of(|problem| {
        let domain = vec![Place::Sort(SortId::BOOL); many];
        for _ in 0..2 {
            problem.add_node(Node::Function { domain: &domain, range: SortId::BOOL.into() });
        }
    });
    let overloads = code_of(|problem| {
        let expr = problem.add_expr(SortId::BOOL);
        for _ in 0..2 {
            problem.disjunction(expr, SortId::BOOL, &vec![Overload::op(SortId::BOOL); many]);
        }
    });
    let sources = code_of(|problem| {
        for _ in 0..2 {
            problem.join(&vec![Place::Sort(SortId::BOOL); many], SortId::BOOL);
        }
    });
    let constraints = code_of(|problem| (0..many).for_each(|_| problem.sub(SortId::BOOL, SortId::BOOL)));
    assert_eq!([sorts, nodes, exprs, arguments, node_arguments, overloads, sources, constraints], [1; 8]);
    // Base names have no ceiling; these are all for one expression.
    let names = code_of(|problem| {
        let expr = problem.add_expr(SortId::BOOL);
        (0..many).for_each(|_| problem.add_name(expr, NameTarget::Builtin));
    });
    assert_eq!(names, 10);
}

#[test]
fn fixed_sorts() {
    assert_eq!(code(&Problem::bare()), 2);
    let mut problem = Problem::bare();
    for sort in [Sort::Unit, Sort::Bool, Sort::Nat, Sort::Pos, Sort::Int, Sort::Real] {
        problem.add_sort(sort);
    }
    assert_eq!(code(&problem), 2);
}

#[test]
fn bad_sorts() {
    for part in [6, 7, 1_024, u16::MAX].map(SortId) {
        let list = Sort::Container { op: ComplexSort::List, subsort: part };
        let range = Sort::Function { domain: &[], range: part };
        let argument = Sort::Function { domain: &[SortId::BOOL, part], range: SortId::BOOL };
        for sort in [list, range, argument] {
            assert_eq!(code_of(|problem| _ = problem.add_sort(sort)), 3, "{sort:?}");
        }
    }
    for (arguments, expected) in [(0, 0), (16, 0), (17, 3)] {
        let sort = Sort::Function { domain: &vec![SortId::BOOL; arguments], range: SortId::BOOL };
        assert_eq!(code_of(|problem| _ = problem.add_sort(sort)), expected, "{arguments} arguments");
    }
}

#[test]
fn equal_sorts() {
    let function = Sort::Function { domain: &[SortId::NAT, SortId::NAT], range: SortId::BOOL };
    for sort in [Sort::Nat, Sort::Def(0), Sort::TypeVar(u16::MAX), function] {
        let twice = code_of(|problem| {
            problem.add_sort(sort);
            problem.add_sort(sort);
        });
        assert_eq!(twice, 4, "{sort:?}");
        let interned = code_of(|problem| assert_eq!(problem.intern(sort), problem.intern(sort)));
        assert_eq!(interned, 0, "{sort:?}");
    }
    assert_eq!(code_of(|problem| _ = (problem.add_sort(Sort::Def(7)), problem.add_sort(Sort::TypeVar(7)))), 0);
}

/// Places that name nothing in a problem that has the fixed six sorts and one node.
const NOWHERE: [Place; 9] = [
    Place::Sort(SortId(6)),
    Place::Sort(SortId(1_023)),
    Place::Sort(SortId(1_024)),
    Place::Sort(SortId(u16::MAX)),
    Place::Node(NodeId(1)),
    Place::Node(NodeId(2_048)),
    Place::Node(NodeId(64_510)),
    Place::Node(NodeId(64_511)),
    Place::Node(NodeId(u16::MAX)),
];

#[test]
fn bad_nodes() {
    for place in NOWHERE.into_iter().chain([Place::Node(NodeId(0))]) {
        let list = Node::Generic { op: ComplexSort::FBag, subsort: place };
        let range = Node::Function { domain: &[], range: place };
        let argument = Node::Function { domain: &[SortId::BOOL.into(), place], range: SortId::BOOL.into() };
        for node in [list, range, argument] {
            assert_eq!(code_of(|problem| _ = problem.add_node(node)), 5, "{node:?}");
        }
    }
    for var in [0, 1, u16::MAX].map(SortVar) {
        assert_eq!(code_of(|problem| _ = problem.add_node(Node::Var(var))), 5, "{var}");
    }
    for (arguments, expected) in [(0, 0), (16, 0), (17, 5)] {
        let node = Node::Function { domain: &vec![Place::Sort(SortId::BOOL); arguments], range: SortId::BOOL.into() };
        assert_eq!(code_of(|problem| _ = problem.add_node(node)), expected, "{arguments} arguments");
    }
}

#[test]
fn bad_bindings() {
    for place in NOWHERE {
        let found = code_of(|problem| {
            let (var, _) = problem.fresh_var();
            problem.bind(var, place).expect("the variable is there");
        });
        assert_eq!(found, 6, "{place}");
    }
    let mut problem = Problem::new();
    problem.fresh_var();
    for var in [1, 512, u16::MAX].map(SortVar) {
        assert_eq!(problem.bind(var, SortId::NAT), Err(Refusal::BadBinding), "{var}");
    }
    assert_eq!(code(&problem), 0);
}

#[test]
fn cycles() {
    let itself = code_of(|problem| {
        let (var, node) = problem.fresh_var();
        problem.bind(var, node).expect("the variable is there");
    });
    let through_parts = code_of(|problem| {
        let ((v, a), (w, b)) = (problem.fresh_var(), problem.fresh_var());
        let list = problem.add_node(Node::Generic { op: ComplexSort::List, subsort: a.into() });
        let function = problem.add_node(Node::Function { domain: &[b.into()], range: SortId::BOOL.into() });
        problem.bind(v, function).expect("the variable is there");
        problem.bind(w, list).expect("the variable is there");
    });
    assert_eq!([itself, through_parts], [7, 7]);
}

#[test]
fn bad_expressions() {
    for place in NOWHERE {
        let found = code_of(|problem| {
            problem.fresh_var();
            problem.add_expr(place);
        });
        assert_eq!(found, 8, "{place}");
    }
    let named = |expr: ExprId, target: NameTarget| {
        code_of(|problem| {
            problem.add_expr(SortId::BOOL);
            problem.add_name(expr, target);
        })
    };
    assert_eq!(named(ExprId(0), NameTarget::Op { sort: SortId::REAL }), 0);
    for sort in [6, 1_024, u16::MAX].map(SortId) {
        assert_eq!(named(ExprId(0), NameTarget::Op { sort }), 8, "{sort}");
    }
    for expr in [1, 512, u16::MAX].map(ExprId) {
        assert_eq!(named(expr, NameTarget::Variable), 8, "{expr}");
    }
}

#[test]
fn bad_constraints() {
    let bool = Place::Sort(SortId::BOOL);
    let with = |add: &dyn Fn(&mut Problem)| {
        code_of(|problem| {
            problem.fresh_var();
            problem.add_expr(SortId::BOOL);
            add(problem);
        })
    };
    let first = ExprId(0);
    for place in NOWHERE {
        let overload = [Overload { target: NameTarget::Builtin, sort: place }];
        let adders: [&dyn Fn(&mut Problem); 9] = [
            &|problem| problem.sub(place, bool),
            &|problem| problem.sub(bool, place),
            &|problem| problem.lit(place, LitKind::Positive),
            &|problem| problem.disjunction(first, place, &[]),
            &|problem| problem.disjunction(first, bool, &overload),
            &|problem| problem.comprehension(place, bool, SortId::NAT),
            &|problem| problem.comprehension(bool, place, SortId::NAT),
            &|problem| problem.join(&[bool], place),
            &|problem| problem.join(&[bool, place], bool),
        ];
        for (index, add) in adders.into_iter().enumerate() {
            assert_eq!(with(add), 9, "constraint {index} at {place}");
        }
    }
    for sort in [6, 1_024, u16::MAX].map(SortId) {
        let overload = [Overload { target: NameTarget::Op { sort }, sort: bool }];
        assert_eq!(with(&|problem| problem.disjunction(first, bool, &overload)), 9, "{sort}");
        assert_eq!(with(&|problem| problem.comprehension(bool, bool, sort)), 9, "{sort}");
    }
    for expr in [1, u16::MAX].map(ExprId) {
        assert_eq!(with(&|problem| problem.disjunction(expr, bool, &[])), 9, "{expr}");
    }
}

#[test]
fn twice_for_one_expression() {
    let disjunctions = code_of(|problem| {
        let expr = problem.add_expr(SortId::BOOL);
        problem.disjunction(expr, SortId::BOOL, &[Overload::op(SortId::BOOL)]);
        problem.disjunction(expr, SortId::BOOL, &[Overload::op(SortId::BOOL)]);
    });
    let names = code_of(|problem| {
        let expr = problem.add_expr(SortId::BOOL);
        problem.add_name(expr, NameTarget::Variable);
        problem.add_name(expr, NameTarget::Builtin);
    });
    assert_eq!([disjunctions, names], [10, 10]);
}

#[test]
fn measures() {
    assert_eq!(code_of(|problem| problem.join(&[], SortId::BOOL)), 11);
    let sources = [Place::Sort(SortId::BOOL); 256];
    assert_eq!(code_of(|problem| problem.join(&sources, SortId::BOOL)), 0);
    let one_more = code_of(|problem| {
        problem.join(&sources, SortId::BOOL);
        problem.sub(SortId::BOOL, SortId::BOOL);
    });
    assert_eq!(one_more, 11);
}

#[test]
fn bad_default() {
    for sort in [6, 1_023, 1_024, u16::MAX].map(SortId) {
        assert_eq!(code_of(|problem| problem.set_default(sort)), 12, "{sort}");
    }
    let mut problem = Problem::new();
    let list = problem.add_sort(Sort::Container { op: ComplexSort::List, subsort: SortId::REAL });
    problem.set_default(list);
    let (_, node) = problem.fresh_var();
    let expr = problem.add_expr(node);
    let mut workspace = Workspace::new();
    assert_eq!(workspace.solve(&problem).map(|typing| typing.sort(expr)), Ok(Some(list)));
}

/// A widening of FSet(v) makes the node Set(v).
#[test]
fn no_room_for_nodes() {
    for (nodes, expected) in [(2_047, 0), (2_048, 16)] {
        let found = code_of(|problem| {
            let set = problem.add_sort(Sort::Container { op: ComplexSort::Set, subsort: SortId::NAT });
            let (_, node) = problem.fresh_var();
            let finite = problem.add_node(Node::Generic { op: ComplexSort::FSet, subsort: node.into() });
            while problem.add_node(Node::Generic { op: ComplexSort::List, subsort: node.into() }).0 < nodes - 1 {}
            problem.sub(finite, set);
        });
        assert_eq!(found, expected, "{nodes} nodes");
    }
}

#[test]
fn no_room_for_sorts() {
    for (sorts, expected) in [(1_022, 18), (1_023, 15), (1_024, 15)] {
        let found = code_of(|problem| {
            while problem.add_sort(Sort::Def(problem.sort_count() as u16)).0 < sorts - 1 {}
            let ((_, body), (_, node)) = (problem.fresh_var(), problem.fresh_var());
            problem.comprehension(body, node, SortId::POS);
        });
        assert_eq!(found, expected, "{sorts} sorts");
    }
}

#[test]
fn ends_of_the_search() {
    assert_eq!(code_of(|problem| problem.sub(SortId::NAT, SortId::POS)), 17);
    let ambiguous = code_of(|problem| {
        let (_, node) = problem.fresh_var();
        let expr = problem.add_expr(node);
        problem.disjunction(expr, node, &[Overload::op(SortId::NAT), Overload::op(SortId::POS)]);
    });
    assert_eq!(ambiguous, 18);
}
