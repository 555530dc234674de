//! merc's sort inference, proved, behind a safe interface.
//!
//! A [Problem] has what merc's `Solver` is handed: sorts, inference nodes, variables, expressions, base names and
//! constraints. A [Workspace] solves it and hands out a [Typing], or says by a [Refusal] why there is none.
//!
//! ```
//! use julqetai::{ComplexSort, Node, Problem, Sort, SortId, Workspace};
//!
//! // A finite set where a set is wanted: Sub of FSet(v) to Set(Nat).
//! let mut problem = Problem::new();
//! let set = problem.add_sort(Sort::Container { op: ComplexSort::Set, subsort: SortId::NAT });
//! let (_, v) = problem.fresh_var();
//! let finite = problem.add_node(Node::Generic { op: ComplexSort::FSet, subsort: v.into() });
//! let element = problem.add_expr(v);
//! problem.sub(finite, set);
//!
//! let mut workspace = Workspace::new();
//! let typing = workspace.solve(&problem)?;
//! assert_eq!(typing.sort(element), Some(SortId::NAT));
//! assert_eq!(typing.measure(), [1]);
//! # Ok::<(), julqetai::Refusal>(())
//! ```
//!
//! **What is proved.** The library behind the call: its answer and all memory that it is lent are equated with a
//! definition, for every input. **What is tested, not proved:** this crate, which puts a problem into words and reads
//! the answer out. No number or length of a problem makes it panic: what names nothing is refused by the library, and
//! so is what is too long.
//!
//! **Time.** The search is merc's and takes as long as merc's: it can be exponential in the number of constraints.
//!
//! **Stack.** The search calls itself. Up to 1 MB of the caller's stack is used; a problem that may take more, such as one
//! of 230 constraints, runs in a thread of its own ([Workspace::set_stack]); where no thread can be had it runs on the
//! caller's stack all the same.

#![deny(unsafe_op_in_unsafe_fn)]
#![warn(missing_docs)]

mod call;
mod constraint;
mod numbers;
mod problem;
mod refusal;
mod sort;
mod stack;
mod text;
mod typing;
mod workspace;

pub use constraint::Constraint;
pub use constraint::LitKind;
pub use constraint::NameTarget;
pub use constraint::Overload;
pub use numbers::ExprId;
pub use numbers::NodeId;
pub use numbers::Place;
pub use numbers::SortId;
pub use numbers::SortVar;
pub use problem::Problem;
pub use refusal::Refusal;
pub use sort::ComplexSort;
pub use sort::NewSorts;
pub use sort::Node;
pub use sort::Sort;
pub use typing::Choice;
pub use typing::Typing;
pub use workspace::Workspace;

/// The code of README.md, tested.
#[cfg(doctest)]
#[doc = include_str!("../README.md")]
struct Readme;
