//! Lists whose sorts crowd the places of the index at which the questions look: declared sorts and type variables that are
//! looked for first at the same slot, or at slots before it, also such that the walk goes round from the last slot to the first.

use common::crowd;
use common::crowd::CROWD;
use common::crowd::Numbered;
use common::draft::Draft;
use common::junk::Junk;
use lists::index;
use lists::memory::*;
use lists::question::Question;

use crate::cases::Case;
use crate::cases::of_sorts;

/// The sorts with numbers `part` - 1 and `part` are a finite container and its infinite one, over a sort of the crowd; the questions are
/// about containers of these two, whose join is the infinite container of the sort `part`.
pub fn clash(mut draft: Draft, junk: &Junk) -> Case {
    let (finite, infinite) = draft.rng.pick(&[(kind::FSET, kind::SET), (kind::FBAG, kind::BAG)]);
    let part = part(&mut draft, infinite);
    let slot = index::place(infinite, part, &[]);
    let each = crowd::each(draft.rng);
    let mut crowd = CROWD.before(slot, each);
    fill(&mut draft, &mut crowd, usize::from(part) - 1);
    let inner = if draft.count() == 6 { kind::BOOL } else { draft.count() as u16 - 1 };
    let (low, high) = (draft.plain(finite, inner), draft.plain(infinite, inner));
    assert_eq!(high, part);
    let (lhs, rhs) = (draft.plain(finite, high), draft.plain(infinite, low));
    let (one, other) = (draft.function(vec![lhs], rhs), draft.function(vec![rhs], lhs));
    if draft.rng.chance(30) {
        // The join is there, and the meet.
        draft.plain(infinite, high);
        draft.plain(finite, low);
    }
    let count = draft.rng.pick(&[0, 0, 100, MAX_SORTS - 3, MAX_SORTS - 2, MAX_SORTS - 1, MAX_SORTS, MAX_SORTS]);
    fill(&mut draft, &mut crowd, count);
    let mut questions = [of_sorts(lhs, rhs), of_sorts(rhs, lhs)].concat();
    for (lhs, rhs) in [(one, other), (other, one), (lhs, lhs)] {
        questions.extend([Question::Join(lhs, rhs), Question::Meet(lhs, rhs)]);
    }
    Case { questions, ..Case::about(draft.memory(junk), &[]) }
}

/// A number from 7 on: in some lists one that gives its container a place near the end of the index.
fn part(draft: &mut Draft, container: u16) -> u16 {
    let most = draft.rng.pick(&[10, 30, 100, 300, 1_000]);
    let near_end: Vec<u16> =
        (7..=1_000).filter(|&part| crowd::is_near_end(index::place(container, part, &[]))).collect();
    match near_end.is_empty() || draft.rng.chance(60) {
        true => draft.rng.between(7, most) as u16,
        false => draft.rng.pick(&near_end),
    }
}

/// Sorts of the crowd up to a count.
fn fill(draft: &mut Draft, crowd: &mut impl Iterator<Item = Numbered>, count: usize) {
    while draft.count() < count {
        let (kind, number) = crowd.next().expect("there are more than enough");
        draft.plain(kind, number);
    }
}
