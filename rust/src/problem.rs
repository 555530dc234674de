//! A problem under construction: the lists of docs/FORMAT.md, in its words.

use crate::Constraint;
use crate::ExprId;
use crate::LitKind;
use crate::NameTarget;
use crate::Node;
use crate::NodeId;
use crate::Overload;
use crate::Place;
use crate::Refusal;
use crate::Sort;
use crate::SortId;
use crate::SortVar;
use crate::call::OverloadRecord;
use crate::numbers::FREE;
use crate::numbers::word;
use crate::sort::Row;
use crate::sort::SortList;

/// What merc's `Solver` is handed. It has the fixed six sorts from the start, and the default sort Bool.
///
/// Nothing is checked while a problem is built: [Workspace::solve](crate::Workspace::solve) names the first check that
/// fails. A problem can have up to 1,024 sorts, 2,048 nodes, 4,096 arguments of sorts and as many of nodes, 512
/// variables, 512 expressions, 256 constraints, 1,024 overloads and 256 Join sources in all.
///
/// Its text is a list of docs/FORMAT.md, which the programs of the repository read:
///
/// ```
/// use julqetai::{ComplexSort, Node, Overload, Problem, Sort, SortId, Workspace};
///
/// // A name that is an operation of sort Nat or one of sort Pos, used where a Nat is wanted.
/// let mut problem = Problem::new();
/// let (_, sort) = problem.fresh_var();
/// let name = problem.add_expr(sort);
/// problem.disjunction(name, sort, &[Overload::op(SortId::NAT), Overload::op(SortId::POS)]);
/// problem.sub(sort, SortId::NAT);
/// assert_eq!(
///     problem.to_string(),
///     "list\nvar v0 n0\nexpr e0 n0\ndisjunction e0 n0\n  overload op Nat Nat\n  overload op Pos Pos\nsub n0 Nat\n"
/// );
///
/// let mut workspace = Workspace::new();
/// let typing = workspace.solve(&problem)?;
/// assert_eq!(typing.sort(name), Some(SortId::NAT));
/// assert_eq!(typing.measure(), [0]);
/// # Ok::<(), julqetai::Refusal>(())
/// ```
#[derive(Clone, Debug, Eq, PartialEq)]
pub struct Problem {
    pub(crate) sorts: SortList,
    pub(crate) nodes: Vec<Row>,
    pub(crate) node_entries: Vec<u16>,
    pub(crate) bindings: Vec<u16>,
    pub(crate) exprs: Vec<u16>,
    pub(crate) names: Vec<[u16; 3]>,
    pub(crate) constraints: Vec<[u16; 5]>,
    pub(crate) overloads: Vec<OverloadRecord>,
    pub(crate) sources: Vec<u16>,
    pub(crate) default: SortId,
}

impl Default for Problem {
    fn default() -> Problem {
        Problem::new()
    }
}

impl Problem {
    /// The fixed six sorts, and nothing else.
    pub fn new() -> Problem {
        let mut problem = Problem::bare();
        for sort in [Sort::Unit, Sort::Bool, Sort::Pos, Sort::Nat, Sort::Int, Sort::Real] {
            problem.add_sort(sort);
        }
        problem
    }

    /// No sort at all. The fixed six have to be added first, in their order.
    pub fn bare() -> Problem {
        Problem {
            sorts: SortList::default(),
            nodes: Vec::new(),
            node_entries: Vec::new(),
            bindings: Vec::new(),
            exprs: Vec::new(),
            names: Vec::new(),
            constraints: Vec::new(),
            overloads: Vec::new(),
            sources: Vec::new(),
            default: SortId::BOOL,
        }
    }

    /// Forgets all but the sorts and the default sort, as merc keeps its interner from one equation to the next. The
    /// memory is used again.
    pub fn keep_sorts_only(&mut self) {
        self.nodes.clear();
        self.node_entries.clear();
        self.bindings.clear();
        self.exprs.clear();
        self.names.clear();
        self.constraints.clear();
        self.overloads.clear();
        self.sources.clear();
    }

    /// Adds a sort to the list, which may not have it yet.
    pub fn add_sort(&mut self, sort: Sort<'_>) -> SortId {
        let number = self.sorts.rows.len();
        self.sorts.push(sort);
        SortId(word(number))
    }

    /// The number of a sort, which is added if the list does not have it. It looks through the whole list.
    ///
    /// ```
    /// use julqetai::{ComplexSort, Problem, Sort, SortId};
    ///
    /// let mut problem = Problem::new();
    /// let set = Sort::Container { op: ComplexSort::Set, subsort: SortId::NAT };
    /// assert_eq!(problem.intern(set), SortId(6));
    /// assert_eq!(problem.intern(set), SortId(6));
    /// assert_eq!(problem.intern(Sort::Nat), SortId::NAT);
    /// ```
    pub fn intern(&mut self, sort: Sort<'_>) -> SortId {
        match (0..self.sorts.rows.len()).find(|&index| self.sorts.get(index) == Some(sort)) {
            Some(index) => SortId(word(index)),
            None => self.add_sort(sort),
        }
    }

    /// A sort of the list.
    pub fn sort(&self, sort: SortId) -> Option<Sort<'_>> {
        self.sorts.get(usize::from(sort.0))
    }

    /// How many sorts the list has.
    pub fn sort_count(&self) -> usize {
        self.sorts.rows.len()
    }

    /// How many expressions there are.
    pub fn expr_count(&self) -> usize {
        self.exprs.len()
    }

    /// The sort for which a variable stands that is still free at the end.
    pub fn set_default(&mut self, sort: SortId) {
        self.default = sort;
    }

    /// A new variable and its node.
    pub fn fresh_var(&mut self) -> (SortVar, NodeId) {
        let var = self.add_var();
        (var, self.add_node(Node::Var(var)))
    }

    /// A new variable, so far without a node.
    pub fn add_var(&mut self) -> SortVar {
        let number = self.bindings.len();
        self.bindings.push(FREE);
        SortVar(word(number))
    }

    /// Binds a variable from the start, in place of an earlier binding. A variable that is not there is
    /// [Refusal::BadBinding].
    pub fn bind(&mut self, var: SortVar, place: impl Into<Place>) -> Result<(), Refusal> {
        let binding = self.bindings.get_mut(usize::from(var.0)).ok_or(Refusal::BadBinding)?;
        *binding = place.into().binding();
        Ok(())
    }

    /// Adds a node.
    pub fn add_node(&mut self, node: Node<'_>) -> NodeId {
        let number = self.nodes.len();
        self.nodes.push(node.row(self.node_entries.len()));
        if let Node::Function { domain, .. } = node {
            self.node_entries.extend(domain.iter().map(|place| place.word()));
        }
        NodeId(word(number))
    }

    /// Adds an expression whose sort is at a place.
    pub fn add_expr(&mut self, place: impl Into<Place>) -> ExprId {
        let number = self.exprs.len();
        self.exprs.push(place.into().word());
        ExprId(word(number))
    }

    /// Adds a base name: what the name at an expression resolves to, unless a disjunction chooses for it.
    pub fn add_name(&mut self, expr: ExprId, target: NameTarget) {
        let [kind, sort] = target.words();
        self.names.push([expr.0, kind, sort]);
    }

    /// Adds a constraint after those that are there.
    pub fn add_constraint(&mut self, constraint: Constraint<'_>) {
        let row = match constraint {
            Constraint::Sub { lhs, rhs } => [0, lhs.word(), rhs.word(), 0, 0],
            Constraint::Lit { sort, kind } => [1, sort.word(), kind as u16, 0, 0],
            Constraint::Disjunction { expr, sort, disjuncts } => {
                let start = self.overloads.len();
                self.overloads.extend(disjuncts.iter().map(OverloadRecord::of));
                [2, expr.0, sort.word(), word(start), word(disjuncts.len())]
            }
            Constraint::Comprehension { body, node, element } => [3, body.word(), node.word(), element.0, 0],
            Constraint::Join { sources, target } => {
                let start = self.sources.len();
                self.sources.extend(sources.iter().map(|place| place.word()));
                [4, target.word(), word(start), word(sources.len()), 0]
            }
        };
        self.constraints.push(row);
    }

    /// Adds a [Constraint::Sub].
    pub fn sub(&mut self, lhs: impl Into<Place>, rhs: impl Into<Place>) {
        self.add_constraint(Constraint::Sub { lhs: lhs.into(), rhs: rhs.into() });
    }

    /// Adds a [Constraint::Lit].
    pub fn lit(&mut self, sort: impl Into<Place>, kind: LitKind) {
        self.add_constraint(Constraint::Lit { sort: sort.into(), kind });
    }

    /// Adds a [Constraint::Disjunction].
    pub fn disjunction(&mut self, expr: ExprId, sort: impl Into<Place>, disjuncts: &[Overload]) {
        self.add_constraint(Constraint::Disjunction { expr, sort: sort.into(), disjuncts });
    }

    /// Adds a [Constraint::Comprehension].
    pub fn comprehension(&mut self, body: impl Into<Place>, node: impl Into<Place>, element: SortId) {
        self.add_constraint(Constraint::Comprehension { body: body.into(), node: node.into(), element });
    }

    /// Adds a [Constraint::Join].
    pub fn join(&mut self, sources: &[Place], target: impl Into<Place>) {
        self.add_constraint(Constraint::Join { sources, target: target.into() });
    }
}
