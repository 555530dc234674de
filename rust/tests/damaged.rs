//! Problems with any numbers in every field: each is answered, none makes the crate panic or the process end.

mod random;

use julqetai::Workspace;
use random::Rng;

#[test]
fn damaged_problems_are_answered() {
    let (mut rng, mut workspace) = (Rng(1), Workspace::new());
    let mut codes = [0; 19];
    for _ in 0..200_000 {
        let problem = random::problem(&mut rng);
        match workspace.solve(&problem) {
            Ok(typing) => {
                codes[0] += 1;
                assert_eq!(typing.sorts().len(), problem.expr_count());
                let sorts = problem.sort_count() + typing.new_sorts().len();
                assert!(typing.sorts().all(|sort| usize::from(sort.0) < sorts), "{problem}");
            }
            Err(refusal) => {
                codes[usize::from(refusal.code())] += 1;
                assert!(refusal.is_searched() || workspace.new_sorts().len() == 0, "{problem}");
            }
        }
    }
    println!("answers by code: {codes:?}");
    // All that a small problem can have.
    for code in [0, 1, 2, 3, 4, 5, 6, 7, 8, 9, 10, 11, 12, 17, 18] {
        assert!(codes[code] > 0, "no problem had {code}");
    }
}
