//! The library asked with words that no workspace lends.

use super::*;

/// Words that a call is lent, and how many rows the lists have. At first the fixed six sorts and one Sub.
#[derive(Clone, Debug, PartialEq)]
struct Words {
    slices: [Vec<u16>; 12],
    overloads: Vec<OverloadRecord>,
    counts: [usize; 10],
    default: u16,
}

const SCRATCH: usize = 7;
const INDEX: usize = 8;

impl Words {
    fn new() -> Words {
        let mut sorts = vec![0; 8_192];
        (0..6).for_each(|kind| sorts[4 * kind] = kind as u16);
        let mut constraints = vec![0; 5];
        constraints[1..3].copy_from_slice(&[2, 5]);
        let none = Vec::new;
        let slices = [
            sorts,
            vec![0; 12_288],
            none(),
            none(),
            none(),
            constraints,
            none(),
            vec![0; 4_096],
            vec![0; 2_048],
            none(),
            vec![0; 1],
            none(),
        ];
        Words { slices, overloads: Vec::new(), counts: [6, 0, 0, 0, 0, 0, 0, 1, 0, 0], default: 1 }
    }

    fn solve(&mut self) -> u64 {
        let [sorts, nodes, binds, exprs, names, constraints, sources, scratch, index, typing, measure, choices] =
            &mut self.slices;
        let [sort_count, entry_count, node_count, node_entry_count, var_count, expr_count, name_count, ..] =
            self.counts;
        let [.., constraint_count, overload_count, source_count] = self.counts;
        solve(Lent {
            sorts,
            sort_count,
            entry_count,
            nodes,
            node_count,
            node_entry_count,
            binds,
            var_count,
            exprs,
            expr_count,
            names,
            name_count,
            constraints,
            constraint_count,
            overloads: &self.overloads,
            overload_count,
            sources,
            source_count,
            default: self.default,
            scratch,
            index,
            typing,
            measure,
            choices,
        })
    }
}

/// Outputs, scratch and index that are too short, which a workspace never lends, change nothing.
#[test]
fn too_short() {
    let mut words = Words::new();
    assert_eq!(words.solve(), 6 << 8 | 1 << 40);
    assert_eq!(words.slices[10], [3]);
    for short in [0, 1, SCRATCH, INDEX, 10] {
        let mut words = Words::new();
        words.slices[short].pop();
        let before = words.clone();
        assert_eq!(words.solve(), 14, "slice {short}");
        assert_eq!(words, before);
    }
}

/// Whatever an index of any length from 2,048 words on holds, the answer is the same, and it is zero at exit; a refusal leaves
/// it as it is.
#[test]
fn index_words() {
    for length in [2_048, 2_049, 4_096] {
        let mut words = Words::new();
        words.slices[INDEX] = (0..length).map(|word| (word * 40_503 + 1) as u16).collect();
        let junk = words.slices[INDEX].clone();
        assert_eq!(words.solve(), 6 << 8 | 1 << 40);
        assert_eq!(words.slices[INDEX], vec![0; length]);
        words.slices[INDEX] = junk.clone();
        words.default = 6;
        assert_eq!(words.solve(), 12);
        assert_eq!(words.slices[INDEX], junk);
    }
}

/// Any words, counts and lengths are answered, and by a code that there is.
#[test]
fn any_words() {
    let mut state = 1_u64;
    let mut next = move || {
        state = state.wrapping_mul(6_364_136_223_846_793_005).wrapping_add(1_442_695_040_888_963_407);
        (state >> 33) as usize
    };
    let mut seen = [0; 19];
    for _ in 0..30_000 {
        let mut words = Words::new();
        for _ in 0..1 + next() % 8 {
            let (slice, count) = (next() % 12, next() % 10);
            let length = words.slices[slice].len();
            match next() % 12 {
                0 => words.counts[count] = [next() % 8, 1 << 16, usize::MAX, usize::MAX / 5 + 1, 1_024][next() % 5],
                1 => words.counts[count] = words.counts[count].wrapping_add(next() % 3),
                2 => words.slices[slice].resize(next() % (length + 2), next() as u16),
                3 => words.overloads.resize(
                    next() % 4,
                    OverloadRecord {
                        target: TargetRecord { kind: (next() % 5) as u16, sort: next() as u16 },
                        sort: (next() % 1_030) as u16,
                    },
                ),
                4 => words.default = next() as u16,
                5 => words.slices[slice].extend([next() as u16, (next() % 8) as u16, (next() % 1_030) as u16]),
                _ if length > 0 => {
                    let at = next() % length.min(32);
                    words.slices[slice][at] = [next(), next() % 16, 1_024 + next() % 3][next() % 3] as u16;
                }
                _ => {}
            }
        }
        let code = usize::from(words.solve() as u8);
        assert!(code == 0 || crate::Refusal::from_code(code as u8).is_some(), "{code}");
        seen[code] += 1;
    }
    println!("answers by code: {seen:?}");
    for code in [0, 1, 2, 3, 4, 9, 12, 14, 17] {
        assert!(seen[code] > 0, "no words had {code}");
    }
}
