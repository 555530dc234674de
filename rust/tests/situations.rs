//! Every situation of document 01, "Starred situations", starred or not, by the safe interface. The expected values are
//! those of the document. Free places unless said; measure in brackets.

use julqetai::ComplexSort;
use julqetai::ExprId;
use julqetai::LitKind;
use julqetai::NameTarget;
use julqetai::Node;
use julqetai::NodeId;
use julqetai::Overload;
use julqetai::Place;
use julqetai::Problem;
use julqetai::Refusal;
use julqetai::Sort;
use julqetai::SortId;
use julqetai::Workspace;

const BOOL: SortId = SortId::BOOL;
const POS: SortId = SortId::POS;
const NAT: SortId = SortId::NAT;
const INT: SortId = SortId::INT;
const REAL: SortId = SortId::REAL;

/// What a problem has to give: the sorts of its expressions and the measure, or a refusal.
type Expected<'a> = Result<(&'a [SortId], &'a [u16]), Refusal>;

fn check(problem: &Problem, expected: Expected) {
    let mut workspace = Workspace::new();
    let found = workspace.solve(problem);
    let found = found.map(|typing| (typing.sorts().collect::<Vec<_>>(), typing.measure().to_vec()));
    assert_eq!(found, expected.map(|(sorts, measure)| (sorts.to_vec(), measure.to_vec())), "{problem}");
}

/// A variable and an expression at it.
fn free(problem: &mut Problem) -> NodeId {
    let (_, node) = problem.fresh_var();
    problem.add_expr(node);
    node
}

fn container(problem: &mut Problem, op: ComplexSort, subsort: SortId) -> SortId {
    problem.add_sort(Sort::Container { op, subsort })
}

fn function(problem: &mut Problem, domain: &[SortId], range: SortId) -> SortId {
    problem.add_sort(Sort::Function { domain, range })
}

#[test]
fn star_1_no_constraints() {
    let mut problem = Problem::new();
    free(&mut problem);
    check(&problem, Ok((&[BOOL], &[])));
}

#[test]
fn star_2_literal_0() {
    let mut problem = Problem::new();
    let node = free(&mut problem);
    problem.lit(node, LitKind::Natural);
    check(&problem, Ok((&[NAT], &[1])));

    let mut problem = Problem::new();
    problem.add_expr(POS);
    problem.lit(POS, LitKind::Natural);
    check(&problem, Err(Refusal::NoTyping));
}

#[test]
fn star_3_literal_7() {
    let mut problem = Problem::new();
    let node = free(&mut problem);
    problem.lit(node, LitKind::Positive);
    check(&problem, Ok((&[POS], &[0])));
}

#[test]
fn star_4_pos_to_real() {
    let mut problem = Problem::new();
    problem.sub(POS, REAL);
    check(&problem, Ok((&[], &[3])));
}

#[test]
fn star_5_nat_to_pos() {
    let mut problem = Problem::new();
    problem.sub(NAT, POS);
    check(&problem, Err(Refusal::NoTyping));
}

#[test]
fn finite_set_to_set() {
    let mut problem = Problem::new();
    let set = container(&mut problem, ComplexSort::Set, NAT);
    let node = free(&mut problem);
    let finite = problem.add_node(Node::Generic { op: ComplexSort::FSet, subsort: node.into() });
    problem.sub(finite, set);
    check(&problem, Ok((&[NAT], &[1])));
}

#[test]
fn star_6_variable_to_list_of_it() {
    let mut problem = Problem::new();
    let node = free(&mut problem);
    let list = problem.add_node(Node::Generic { op: ComplexSort::List, subsort: node.into() });
    problem.sub(node, list);
    check(&problem, Err(Refusal::NoTyping));
}

#[test]
fn star_7_comprehension_with_free_body() {
    let mut problem = Problem::new();
    let (body, node) = (free(&mut problem), free(&mut problem));
    problem.comprehension(body, node, POS);
    check(&problem, Err(Refusal::Ambiguous));
}

#[test]
fn comprehension_with_body_nat() {
    let mut problem = Problem::new();
    let bag = container(&mut problem, ComplexSort::Bag, POS);
    let node = free(&mut problem);
    problem.comprehension(NAT, node, POS);
    check(&problem, Ok((&[bag], &[])));
}

/// The same without Bag(Pos) in the list: the search makes it.
#[test]
fn comprehension_that_makes_its_sort() {
    let mut problem = Problem::new();
    let node = free(&mut problem);
    problem.comprehension(NAT, node, POS);
    let mut workspace = Workspace::new();
    let typing = workspace.solve(&problem).expect("it has a typing");
    let sort = typing.sorts().next().expect("there is one expression");
    let (_, made) = typing.new_sorts().find(|(number, _)| *number == sort).expect("it is new");
    assert_eq!(made, Sort::Container { op: ComplexSort::Bag, subsort: POS });
    assert_eq!(typing.measure(), []);
}

#[test]
fn star_8_disjunction() {
    let mut problem = Problem::new();
    let node = free(&mut problem);
    problem.disjunction(ExprId(0), node, &[Overload::op(NAT), Overload::op(POS)]);
    check(&problem, Err(Refusal::Ambiguous));

    // Star 9: followed by Sub of it to Nat.
    problem.sub(node, NAT);
    check(&problem, Ok((&[NAT], &[0])));
}

#[test]
fn star_10_join() {
    let mut problem = Problem::new();
    let node = free(&mut problem);
    problem.join(&[POS.into(), NAT.into()], node);
    check(&problem, Ok((&[NAT], &[1, 0])));
}

#[test]
fn join_of_finite_sets() {
    let mut problem = Problem::new();
    let sources = [POS, NAT].map(|sort| Place::Sort(container(&mut problem, ComplexSort::FSet, sort)));
    let node = free(&mut problem);
    problem.join(&sources, node);
    check(&problem, Err(Refusal::NoTyping));
}

#[test]
fn star_11_join_of_functions() {
    let mut problem = Problem::new();
    let [to_pos, to_nat] = [POS, NAT].map(|range| function(&mut problem, &[BOOL], range));
    let node = free(&mut problem);
    let mut subs = problem.clone();
    problem.join(&[to_pos.into(), to_nat.into()], node);
    check(&problem, Ok((&[to_nat], &[0, 0])));

    subs.sub(to_pos, node);
    subs.sub(to_nat, node);
    check(&subs, Ok((&[to_nat], &[1, 0])));
}

#[test]
fn sub_before_and_after_two_disjunctions() {
    let mut problem = Problem::new();
    let (a, b) = (free(&mut problem), free(&mut problem));
    let disjunctions = |problem: &mut Problem| {
        problem.disjunction(ExprId(0), a, &[Overload::op(POS), Overload::op(BOOL)]);
        problem.disjunction(ExprId(1), b, &[Overload::op(NAT), Overload::op(INT)]);
    };
    let mut first = problem.clone();
    first.sub(a, b);
    disjunctions(&mut first);
    check(&first, Err(Refusal::NoTyping));

    disjunctions(&mut problem);
    problem.sub(a, b);
    check(&problem, Ok((&[POS, NAT], &[1])));
}

/// Declared sorts up to a number of sorts.
fn fill(problem: &mut Problem, count: usize) {
    for number in problem.sort_count()..count {
        problem.add_sort(Sort::Def(number as u16));
    }
}

/// An expression of sort List(Bool), once its variable is put in.
fn needs_a_list(problem: &mut Problem) {
    let (_, node) = problem.fresh_var();
    let list = problem.add_node(Node::Generic { op: ComplexSort::List, subsort: node.into() });
    problem.add_expr(list);
}

#[test]
fn full_of_sorts() {
    // No new one is needed.
    let mut problem = Problem::new();
    fill(&mut problem, 1_024);
    let node = free(&mut problem);
    problem.lit(node, LitKind::Natural);
    check(&problem, Ok((&[NAT], &[1])));

    // List(Bool) is.
    let mut problem = Problem::new();
    fill(&mut problem, 1_024);
    needs_a_list(&mut problem);
    check(&problem, Err(Refusal::NoRoomForSort));

    // It is needed, and there.
    let mut problem = Problem::new();
    let list = container(&mut problem, ComplexSort::List, BOOL);
    fill(&mut problem, 1_024);
    needs_a_list(&mut problem);
    check(&problem, Ok((&[list], &[])));

    // One less is given: it fits.
    let mut problem = Problem::new();
    fill(&mut problem, 1_023);
    needs_a_list(&mut problem);
    check(&problem, Ok((&[SortId(1_023)], &[])));
}

/// Two Joins, each with its own sources.
#[test]
fn two_joins() {
    let mut problem = Problem::new();
    let (a, b) = (free(&mut problem), free(&mut problem));
    problem.join(&[POS.into(), NAT.into(), POS.into()], a);
    problem.join(&[REAL.into(), INT.into()], b);
    check(&problem, Ok((&[NAT, REAL], &[1, 0, 1, 0, 1])));
}

/// As many components, and as many choices, as there can be. The choices rise, though the disjunctions fall.
#[test]
fn large_answers() {
    let mut problem = Problem::new();
    let targets = [POS, NAT, INT, REAL].into_iter().cycle().take(256);
    targets.clone().for_each(|target| problem.sub(POS, target));
    check(&problem, Ok((&[], &[0, 1, 2, 3].repeat(64))));

    let mut problem = Problem::new();
    let exprs: Vec<ExprId> = targets.map(|sort| problem.add_expr(sort)).collect();
    for (index, &expr) in exprs.iter().enumerate().rev() {
        let sort = [POS, NAT, INT, REAL][index % 4];
        problem.disjunction(expr, sort, &[POS, NAT, INT, REAL].map(Overload::op));
    }
    let mut workspace = Workspace::new();
    let typing = workspace.solve(&problem).expect("each has one overload that fits");
    let choices: Vec<(ExprId, usize)> = typing.choices().map(|choice| (choice.expr, choice.position)).collect();
    assert_eq!(choices, (0..256).map(|index| (exprs[index], index % 4)).collect::<Vec<_>>());
    assert!(typing.names().eq(typing.sorts().map(|sort| Some(NameTarget::Op { sort }))));
}
