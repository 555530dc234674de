//! Puts one list into the excerpt and asks it one question.

use lists::memory::Memory;
use lists::question::Question;
use lists::verdict::Heard;
use lists::verdict::Reply;

use crate::Listed;
use crate::Places;

/// Asks about a list that no check before the search refuses.
pub fn ask(memory: &Memory, question: Question) -> Heard {
    match question {
        Question::Solve => {
            let mut listed = Listed::load(memory);
            begin(memory);
            let reply = Reply::Solve(listed.solve());
            heard(&listed.places, memory, reply)
        }
        Question::Unify(lhs, rhs) => {
            let mut places = Places::load(memory);
            begin(memory);
            let reply = Reply::Unify(places.unify(lhs, rhs).then(|| places.ends()));
            heard(&places, memory, reply)
        }
        _ => {
            let mut places = Places::of_sorts(memory);
            begin(memory);
            let reply = places.lattice.ask(question);
            heard(&places, memory, reply)
        }
    }
}

/// The list is put in: from here on the counting build counts.
fn begin(_memory: &Memory) {
    #[cfg(feature = "counting")]
    crate::ledger::begin(_memory);
}

fn heard(places: &Places, memory: &Memory, reply: Reply) -> Heard {
    Heard { reply, new: places.lattice.sorts_from(memory.sort_count) }
}
