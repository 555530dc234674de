//! Lists that are full, or nearly so.

use common::draft::Draft;
use common::junk;
use common::junk::Junk;
use lists::memory::*;
use lists::question::Question;

use crate::cases::Case;
use crate::cases::add_sorts;
use crate::cases::of_sorts;

/// 1,022 to 1,024 sorts; of these lists some have 4,080 to 4,096 entries.
pub fn rows(mut draft: Draft, junk: &Junk) -> Case {
    let before = draft.rng.pick(&[0, 10, 100, 600]);
    pad(&mut draft, 6 + before);
    let full_entries = draft.rng.chance(40);
    if full_entries {
        stray_entries(&mut draft);
    }
    let questions = questions(&mut draft);
    if full_entries {
        fill_entries(&mut draft);
    }
    let count = draft.rng.between(MAX_SORTS - 2, MAX_SORTS);
    pad(&mut draft, count);
    Case { questions, ..Case::about(draft.memory(junk), &[]) }
}

/// 4,080 to 4,096 entries.
pub fn entries(mut draft: Draft, junk: &Junk) -> Case {
    stray_entries(&mut draft);
    let questions = questions(&mut draft);
    fill_entries(&mut draft);
    Case { questions, ..Case::about(draft.memory(junk), &[]) }
}

/// Adds sorts: every question about two of them, and joins and meets that mostly make sorts.
fn questions(draft: &mut Draft) -> Vec<Question> {
    let first = draft.count();
    add_sorts(draft);
    let (lhs, rhs) = draft.pair(first);
    let mut questions = of_sorts(lhs, rhs).to_vec();
    for _ in 0..3 {
        let (lhs, rhs) = draft.making_pair(first);
        questions.extend([Question::Join(lhs, rhs), Question::Meet(lhs, rhs)]);
    }
    questions
}

/// Adds sorts that have no entries, up to a number of sorts.
pub fn pad(draft: &mut Draft, count: usize) {
    while draft.count() < count {
        let number = draft.count() as u16;
        match draft.rng.below(4) {
            0 => draft.plain(kind::DEF, number + 2_000),
            1 => draft.plain(kind::TYPE_VAR, number + 2_000),
            2 => draft.plain(kind::LIST, number - 1),
            _ => draft.plain(kind::FSET, number - 1),
        };
    }
}

/// Entries that no run has, before those of the list.
fn stray_entries(draft: &mut Draft) {
    for _ in 0..draft.rng.below(3_000) {
        let word = junk::word(draft.rng);
        draft.entries.push(word);
    }
}

/// Fills the entries up, half the time with a function whose run is at their end.
fn fill_entries(draft: &mut Draft) {
    let count = draft.rng.between(MAX_ENTRIES - MAX_ARGUMENTS, MAX_ENTRIES);
    if draft.rng.chance(50) {
        draft.entries.resize(count - MAX_ARGUMENTS - 1, 0);
        let arguments = [(); MAX_ARGUMENTS].map(|()| draft.rng.between(kind::BOOL.into(), kind::REAL.into()) as u16);
        draft.function(arguments.to_vec(), kind::UNIT);
    }
    draft.entries.resize(count, u16::MAX);
}

#[cfg(test)]
mod tests {
    use crate::cases::*;

    fn counts(class: Class) -> impl Iterator<Item = (usize, usize)> {
        let cases = Cases::new(class, 1);
        (0..500)
            .map(move |index| cases.case(index).expect("a random class has no end").call.memory)
            .map(|memory| (memory.sort_count, memory.entry_count))
    }

    #[test]
    fn full_lists_are_full() {
        assert!(counts(Class::FullRows).all(|(sorts, _)| (1_022..=1_024).contains(&sorts)));
        assert!(counts(Class::FullRows).any(|(_, entries)| (4_080..=4_096).contains(&entries)));
        assert!(counts(Class::FullEntries).all(|(_, entries)| (4_080..=4_096).contains(&entries)));
    }
}
