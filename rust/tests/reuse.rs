//! A workspace that is used again gives what a new one gives, and a solve allocates nothing.

mod random;

use std::alloc::GlobalAlloc;
use std::alloc::Layout;
use std::alloc::System;
use std::cell::Cell;

use julqetai::Problem;
use julqetai::Refusal;
use julqetai::Typing;
use julqetai::Workspace;
use random::Rng;

/// Counts the allocations of this thread.
struct Counting;

thread_local! {
    static ALLOCATIONS: Cell<usize> = const { Cell::new(0) };
}

// SAFETY: all is handed on to the system's.
unsafe impl GlobalAlloc for Counting {
    unsafe fn alloc(&self, layout: Layout) -> *mut u8 {
        ALLOCATIONS.with(|count| count.set(count.get() + 1));
        // SAFETY: as the caller says.
        unsafe { System.alloc(layout) }
    }

    unsafe fn dealloc(&self, pointer: *mut u8, layout: Layout) {
        // SAFETY: as the caller says.
        unsafe { System.dealloc(pointer, layout) }
    }
}

#[global_allocator]
static COUNTING: Counting = Counting;

fn allocations() -> usize {
    ALLOCATIONS.with(Cell::get)
}

#[test]
fn used_again() {
    let (mut rng, mut used, mut solved) = (Rng(2), Workspace::new(), 0);
    for _ in 0..20_000 {
        let problem = random::problem(&mut rng);
        let mut fresh = Workspace::new();
        let expected = fresh.solve(&problem);
        for _ in 0..2 {
            assert_eq!(used.solve(&problem), expected, "{problem}");
        }
        solved += usize::from(expected.is_ok());
        assert!(used.new_sorts().eq(fresh.new_sorts()), "{problem}");
    }
    assert!(solved > 1_000, "{solved} typings");
}

#[test]
fn nothing_is_allocated() {
    let (mut rng, mut workspace) = (Rng(3), Workspace::new());
    // Not those that are so large that they run in a thread of their own.
    let problems = (0..20_000).map(|_| random::problem(&mut rng)).filter(|problem| problem.to_string().len() < 1_000);
    let problems: Vec<Problem> = problems.collect();
    assert!(problems.len() > 15_000);
    let before = allocations();
    let mut sum = 0;
    for problem in &problems {
        if let Ok(typing) = workspace.solve(problem) {
            sum += typing.sorts().map(|sort| usize::from(sort.0)).sum::<usize>() + typing.new_sorts().len();
        }
    }
    assert_eq!(allocations() - before, 0);
    assert!(sum > 0);
}

/// Kept sorts: solved again, the problem has the same typing and makes no more sorts.
#[test]
fn kept_sorts() {
    let (mut rng, mut workspace, mut again, mut made) = (Rng(4), Workspace::new(), Workspace::new(), 0);
    for _ in 0..20_000 {
        let given = random::problem(&mut rng);
        let mut kept = given.clone();
        let first = workspace.solve_and_keep(&mut kept);
        let searched = !matches!(first, Err(refusal) if !refusal.is_searched());
        assert_eq!(again.solve(&given), first);
        let second = again.solve(&kept);
        match (&first, &second) {
            (Ok(first), Ok(second)) => assert!(same_but_for_new(first, second), "{given}"),
            _ => assert_eq!(first.map(|_| ()), second.map(|_| ()), "{given}"),
        }
        if searched {
            assert_eq!(again.new_sorts().len(), 0, "{kept}");
            assert_eq!(kept.sort_count(), given.sort_count() + workspace.new_sorts().len());
            made += workspace.new_sorts().len();
        } else {
            assert_eq!(kept, given);
        }
    }
    assert!(made > 1_000, "{made} sorts made");
}

fn same_but_for_new(lhs: &Typing, rhs: &Typing) -> bool {
    lhs.sorts().eq(rhs.sorts())
        && lhs.names().eq(rhs.names())
        && lhs.measure() == rhs.measure()
        && lhs.choices().eq(rhs.choices())
}

/// One problem after another over the same sorts, as merc keeps its interner.
#[test]
fn problems_over_the_same_sorts() -> Result<(), Refusal> {
    let (mut problem, mut workspace) = (Problem::new(), Workspace::new());
    for turn in 0..3 {
        problem.keep_sorts_only();
        let (_, node) = problem.fresh_var();
        let expr = problem.add_expr(node);
        problem.comprehension(julqetai::SortId::BOOL, node, julqetai::SortId::POS);
        let typing = workspace.solve_and_keep(&mut problem)?;
        assert_eq!(typing.sort(expr), Some(julqetai::SortId(6)));
        // All three readings make their container, whether the body has its sort or not.
        assert_eq!(typing.new_sorts().len(), if turn == 0 { 2 } else { 0 });
        assert_eq!(problem.sort_count(), 8);
    }
    Ok(())
}

#[test]
fn threads_may_share() {
    fn check<T: Send + Sync>() {}
    check::<Problem>();
    check::<Workspace>();
    check::<Typing>();
    check::<Refusal>();
}

/// A workspace can be used by one thread after another, and two by two threads.
#[test]
fn threads() {
    let problems: Vec<Problem> = (0..4_000).map(|seed| random::problem(&mut Rng(seed))).collect();
    let codes = |workspace: &mut Workspace| -> Vec<u8> {
        problems.iter().map(|problem| workspace.solve(problem).map_or_else(Refusal::code, |_| 0)).collect()
    };
    let expected = codes(&mut Workspace::new());
    std::thread::scope(|scope| {
        let threads: Vec<_> = (0..4).map(|_| scope.spawn(|| codes(&mut Workspace::new()))).collect();
        for thread in threads {
            assert_eq!(thread.join().expect("no thread panics"), expected);
        }
    });
}
