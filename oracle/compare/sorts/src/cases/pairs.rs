//! Every pair of the small sorts.

use common::draft::Draft;
use common::junk::Junk;
use lists::memory::kind;
use lists::verdict::Shape;

use crate::cases::Case;

/// A basic sort has size 1, a container one more than its part, a function one more than its
/// arguments, of which there is one at least, and its range together.
const LARGEST: usize = 4;

/// Pair `index`: the sorts `index / count` and `index % count` of the small ones, with their parts.
pub fn pair(mut draft: Draft, junk: &Junk, small: &[Shape], index: u64) -> Option<Case> {
    let count = small.len() as u64;
    let lhs = u16::try_from(index / count).ok().filter(|&lhs| u64::from(lhs) < count)?;
    let lhs = draft.copy(small, lhs);
    let rhs = draft.copy(small, (index % count) as u16);
    Some(Case::about(draft.memory(junk), &[(lhs, rhs)]))
}

/// The sorts of Bool, Pos, Nat, Int and Real up to size 4; parts are numbers of this table.
pub fn small_sorts() -> Vec<Shape> {
    let mut table: Vec<Shape> = (kind::BOOL..=kind::REAL).map(|kind| plain(kind, 0)).collect();
    let mut by_size = vec![Vec::new(), numbers(0, table.len())];
    for size in 2..=LARGEST {
        let first = table.len();
        for container in kind::LIST..=kind::FBAG {
            table.extend(by_size[size - 1].iter().map(|&part| plain(container, part)));
        }
        for mut parts in sequences(&by_size, size - 1) {
            let range = parts.pop().expect("a sequence of a size is not empty");
            if !parts.is_empty() {
                table.push(Shape { kind: kind::FUNCTION, part: range, arguments: parts });
            }
        }
        by_size.push(numbers(first, table.len()));
    }
    table
}

fn plain(kind: u16, part: u16) -> Shape {
    Shape { kind, part, arguments: Vec::new() }
}

fn numbers(from: usize, to: usize) -> Vec<u16> {
    (from as u16..to as u16).collect()
}

/// All sequences of sorts whose sizes sum up to `total`.
fn sequences(by_size: &[Vec<u16>], total: usize) -> Vec<Vec<u16>> {
    if total == 0 {
        return vec![Vec::new()];
    }
    let mut found = Vec::new();
    for size in 1..=total {
        for rest in sequences(by_size, total - size) {
            found.extend(by_size[size].iter().map(|&first| [&[first], &rest[..]].concat()));
        }
    }
    found
}

#[cfg(test)]
mod tests {
    use std::collections::HashSet;

    #[test]
    fn there_are_1305_small_sorts() {
        let sorts = super::small_sorts();
        assert_eq!(sorts.len(), 1305);
        assert_eq!(sorts.iter().collect::<HashSet<_>>().len(), 1305);
    }
}
