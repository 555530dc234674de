//! Questions one after another over the same memory, in lists that have little room: calls after such as ended with 15.

use common::draft::Draft;
use common::junk::Junk;
use lists::memory::*;
use lists::question::Question;

use crate::cases::Case;
use crate::cases::add_sorts;
use crate::cases::full::pad;

pub fn again(mut draft: Draft, junk: &Junk) -> Case {
    let before = draft.rng.pick(&[0, 10, 100, 600]);
    pad(&mut draft, 6 + before);
    let first = draft.count();
    add_sorts(&mut draft);
    let mut questions = Vec::new();
    for _ in 0..draft.rng.between(4, 10) {
        let (lhs, rhs) = draft.making_pair(first);
        let turn = [
            Question::Join(lhs, rhs),
            Question::Meet(lhs, rhs),
            Question::Join(rhs, lhs),
            Question::Meet(rhs, lhs),
            Question::PartialCmp(lhs, rhs),
        ];
        let count = draft.rng.between(1, turn.len());
        questions.extend(&turn[..count]);
    }
    let room = draft.rng.pick(&[0, 1, 1, 1, 2, 2, 3, 4]);
    pad(&mut draft, MAX_SORTS - room);
    Case { questions, one_memory: true, ..Case::about(draft.memory(junk), &[]) }
}
