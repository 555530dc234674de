//! The questions of a case put to the port and to the excerpt.

use lists::memory::*;
use lists::question::Question;
use lists::verdict::Shape;

use crate::call::Call;
use crate::call::Lent;
use crate::cases::Case;
use crate::expected::Expected;
use crate::expected::expected;

/// Asks about what is lent; see [crate::port::ask].
pub type Ask = fn(&mut Lent, &Memory, Question) -> u64;

/// Asks the port every question of a case, over the list as it is given, or over what the call before has left of it.
/// `each` is told what is expected of each, and what was lent.
pub fn compare_all(ask: Ask, case: &Case, mut each: impl FnMut(&Expected, &Call)) -> Result<(), String> {
    let mut left = case.call.clone();
    let mut lent = Lent::new(&left);
    for &question in &case.questions {
        if !case.one_memory {
            left.clone_from(&case.call);
            lent = Lent::new(&left);
        }
        let asked = compare(ask, &mut lent, &mut left, question);
        let expected = asked.map_err(|message| format!("{question:?}: {message}"))?;
        each(&expected, &left);
    }
    Ok(())
}

/// Asks the port, and compares its answer and all of memory at exit with what is expected. The call is turned into what
/// it leaves.
pub fn compare(ask: Ask, lent: &mut Lent, call: &mut Call, question: Question) -> Result<Expected, String> {
    let expected = expected(&call.memory, question)?;
    let answer = ask(lent, &call.memory, question);
    if answer != expected.packed() {
        return Err(format!("the answer is {answer:#x}, expected {:#x}: {expected:?}", expected.packed()));
    }
    expected.leave(call);
    lent.same(call)?;
    if let Expected::Bound { sorts, entries, .. } = &expected {
        same_sorts(&Memory::of_sorts(call.memory.sorts.clone(), sorts.len(), *entries), sorts)?;
    }
    Ok(expected)
}

/// The port's list against merc's arena, row by row.
fn same_sorts(list: &Memory, arena: &[Shape]) -> Result<(), String> {
    for (number, expected) in arena.iter().enumerate() {
        let found = list.shape(number);
        if found != *expected {
            return Err(format!("sort {number} is {found:?}, expected {expected:?}"));
        }
    }
    Ok(())
}

#[cfg(test)]
mod tests {
    use common::draft::Draft;
    use common::guard::GUARD;
    use common::guard::between_guards;
    use common::guard::guarded;
    use common::junk::Junk;
    use lists::memory::kind::*;
    use lists::rng::Rng;

    use super::*;
    use crate::port;

    /// Joins of FSet(Nat) # Bool -> Bool and Set(Pos) # Pos -> Bool: FSet(Pos) is made, then there is none.
    const MAKES: Question = Question::Join(8, 9);
    const READS: Question = Question::PartialCmp(8, 9);
    const REFUSED: Question = Question::Meet(8, 2_000);

    /// A list with these two functions, filled up to a number of sorts, in 16,384 words of junk, and an index of junk.
    fn call(sorts: usize, index: usize) -> Call {
        let rng = &mut Rng::of_list(1, 1);
        let junk = Junk::new(1);
        let words = junk.words(rng, 16_384);
        let mut draft = Draft::new(rng);
        let (fset, set) = (draft.plain(FSET, NAT), draft.plain(SET, POS));
        draft.function(vec![fset, BOOL], BOOL);
        draft.function(vec![set, POS], BOOL);
        for number in draft.count()..sorts {
            draft.plain(DEF, number as u16);
        }
        let mut call = Call::new(draft.laid_out(words));
        call.index = (0..index).map(|word| 40_503 * word as u32 >> 5 | 1).map(|word| word as u16).collect();
        call.memory.index = index;
        call
    }

    fn none(list: &Memory) -> u64 {
        (list.sort_count as u64) << 32 | (list.entry_count as u64) << 48
    }

    /// The port, but one word of the sorts, counted from their first, is another at exit.
    fn with_word(at: isize, lent: &mut Lent, list: &Memory, question: Question) -> u64 {
        let answer = port::ask(lent, list, question);
        lent.sorts[(GUARD as isize + at) as usize] ^= 1;
        answer
    }

    /// The same of the index.
    fn with_index(at: isize, lent: &mut Lent, list: &Memory, question: Question) -> u64 {
        let answer = port::ask(lent, list, question);
        lent.index[(GUARD as isize + at) as usize] ^= 1;
        answer
    }

    fn length(list: &Memory) -> isize {
        list.sorts.len() as isize
    }

    /// The port, but the words of the index from one on are at exit what they were.
    fn index_kept(from: usize, lent: &mut Lent, list: &Memory, question: Question) -> u64 {
        let before = lent.index.clone();
        let answer = port::ask(lent, list, question);
        lent.index[GUARD + from..].copy_from_slice(&before[GUARD + from..]);
        answer
    }

    /// What is wrong, the wrong port, how many sorts the list and how many words the index has, and a question that
    /// shows it.
    const WRONG: [(&str, Ask, usize, usize, Question); 19] = [
        ("another answer", |lent, list, q| port::ask(lent, list, q) ^ 1 << 8, 10, INDEX, MAKES),
        (
            "count restored on none",
            |lent, list, q| {
                port::ask(lent, list, q);
                none(list)
            },
            10,
            INDEX,
            MAKES,
        ),
        ("none before room is met", |_, list, _| none(list), 1024, INDEX, MAKES),
        ("the word before the sorts", |lent, list, q| with_word(-1, lent, list, q), 10, INDEX, MAKES),
        ("the word after the sorts", |lent, list, q| with_word(length(list), lent, list, q), 10, INDEX, MAKES),
        ("an unused word of a row", |lent, list, q| with_word(1, lent, list, q), 10, INDEX, READS),
        ("the new row", |lent, list, q| with_word(43, lent, list, q), 10, INDEX, MAKES),
        ("a row past the kept ones", |lent, list, q| with_word(44, lent, list, q), 10, INDEX, MAKES),
        ("the last word on a refusal", |lent, list, q| with_word(length(list) - 1, lent, list, q), 10, INDEX, REFUSED),
        ("the last word after 15", |lent, list, q| with_word(length(list) - 1, lent, list, q), 1024, INDEX, MAKES),
        ("the index not cleared", |lent, list, q| index_kept(0, lent, list, q), 10, INDEX, MAKES),
        ("the index not cleared after 15", |lent, list, q| index_kept(0, lent, list, q), 1024, INDEX, MAKES),
        (
            "the last word of the index not cleared",
            |lent, list, q| index_kept(INDEX - 1, lent, list, q),
            10,
            INDEX,
            MAKES,
        ),
        ("a longer index cleared to 2,048", |lent, list, q| index_kept(INDEX, lent, list, q), 10, 2 * INDEX, MAKES),
        (
            "the index cleared on a refusal",
            |lent, list, q| {
                let answer = port::ask(lent, list, q);
                between_guards(&mut lent.index).fill(0);
                answer
            },
            10,
            INDEX,
            REFUSED,
        ),
        ("a word of the index on a refusal", |lent, list, q| with_index(7, lent, list, q), 10, INDEX, REFUSED),
        ("the word before the index", |lent, list, q| with_index(-1, lent, list, q), 10, INDEX, MAKES),
        ("the word after the index", |lent, list, q| with_index(INDEX as isize, lent, list, q), 10, INDEX, MAKES),
        (
            "an index of 2,047 words taken",
            |lent, list, q| {
                let mut longer = Lent { sorts: lent.sorts.clone(), index: guarded(&[0; INDEX]) };
                let answer = port::ask(&mut longer, list, q);
                lent.sorts = longer.sorts;
                between_guards(&mut lent.index).fill(0);
                answer
            },
            10,
            INDEX - 1,
            MAKES,
        ),
    ];

    #[test]
    fn wrong_ports_are_found() {
        for (what, ask, sorts, index, question) in WRONG {
            let compared = |ask: Ask| {
                let mut call = call(sorts, index);
                compare(ask, &mut Lent::new(&call), &mut call, question)
            };
            compared(port::ask).expect("the port itself is right");
            assert!(compared(ask).is_err(), "not found: {what}");
        }
    }
}
