//! Stack for the search, which calls itself: once for each constraint and each source of a Join, and at each of these
//! levels down through the nesting of a sort. A problem at its ceilings takes up to 2.8 MB, more than a thread of Rust
//! has by default. The numbers here are measured, with room to spare; `tests/stack.rs` holds them to problems of the worst
//! shapes that were found.

use std::thread;

use crate::Problem;

/// What every call takes, each level of the search, and each level of a nested sort.
const BASE: usize = 128 << 10;
const LEVEL: usize = 4 << 10;
const NESTING: usize = 1 << 10;

/// A problem that may take more does not run on the stack of the caller, unless a workspace is told that there is more.
pub(crate) const CALLER: usize = 1 << 20;

/// More than any problem takes.
const OWN: usize = 8 << 20;

/// The most that a problem takes. One that is above a ceiling is refused before it is looked through.
fn needed(problem: &Problem) -> usize {
    let levels = problem.constraints.len().saturating_add(problem.sources.len());
    let nested = problem.nodes.len().saturating_add(problem.bindings.len());
    match levels <= 512 && nested <= 2_560 && problem.sorts.rows.len() <= 1_024 {
        true => BASE + levels * LEVEL + (nested + problem.sorts.deepest) * NESTING,
        false => BASE,
    }
}

/// Calls on the stack of the caller if so much of it is enough by any measure, else in a thread that has more. Where there
/// is no such thread to be had, the stack of the caller has to do.
pub(crate) fn call(problem: &Problem, caller: usize, call: impl FnOnce() -> u64 + Send) -> u64 {
    if needed(problem) <= caller {
        return call();
    }
    let mut call = Some(call);
    let answer = thread::scope(|scope| {
        let thread = thread::Builder::new().stack_size(OWN).spawn_scoped(scope, || call.take().map(|call| call()));
        thread.ok().and_then(|thread| thread.join().ok().flatten())
    });
    match (answer, call) {
        (Some(answer), _) => answer,
        (None, Some(call)) => call(),
        (None, None) => unreachable!("the call does not panic"),
    }
}
