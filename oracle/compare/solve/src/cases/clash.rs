//! Lists whose sorts crowd the place of the index at which the search looks for a sort that it makes: declared sorts and type
//! variables that are looked for first at the same slot, or at slots before it, also such that the walk goes round from the last
//! slot to the first; up to 1,024 sorts.

use std::collections::HashSet;

use common::crowd;
use common::crowd::CROWD;
use lists::given::Given;
use lists::index;
use lists::memory::*;
use lists::question::Question;
use lists::rng::Rng;
use lists::verdict::Shape;
use merc_counting::ledger;

use crate::cases::pad;

/// How many lists are looked at for one whose search makes sorts.
const TRIES: u64 = 6;

/// `list` makes the list of a turn.
pub fn clash(rng: &mut Rng, list: impl Fn(&mut Rng, u64) -> Given) -> Given {
    let (mut list, mut made) = making(rng, list);
    if rng.chance(40) {
        near_end(rng, &mut list, &mut made);
    }
    let own = list.sorts.len();
    if rng.chance(25) {
        append(&mut list, &made);
        made.clear();
    }
    let slot = slot(rng, &list, own, &made);
    let room = MAX_SORTS.saturating_sub(made.len());
    let count = rng.pick(&[own + 2, own + 5, own + 30, 200, 600, room, room, MAX_SORTS]).min(MAX_SORTS);
    fill(rng, &mut list, slot, count);
    list
}

/// The first of a few lists whose search makes sorts, with these.
fn making(rng: &mut Rng, list: impl Fn(&mut Rng, u64) -> Given) -> (Given, Vec<Shape>) {
    let mut turn = 0;
    loop {
        let list = list(rng, turn);
        let made = made(&list);
        turn += 1;
        if !made.is_empty() || turn == TRIES {
            return (list, made);
        }
    }
}

/// The sorts that the search of a list makes.
fn made(list: &Given) -> Vec<Shape> {
    let memory = Memory { ceilings: Ceilings::NONE, ..list.memory() };
    let heard = merc_counting::ask(&memory, Question::Solve);
    ledger::end();
    heard.new
}

/// Raises the numbers of the list's sorts so that one of those made has its place near the end of the index.
fn near_end(rng: &mut Rng, list: &mut Given, made: &mut [Shape]) {
    let own = list.sorts.len();
    let most = MAX_SORTS - own - made.len().min(MAX_SORTS - own);
    if most == 0 {
        return;
    }
    let start = rng.below(most);
    let raised = |sort: &Shape, more: usize| {
        let raise = |number: &u16| if *number > kind::REAL { number + more as u16 } else { *number };
        let arguments = sort.arguments.iter().map(raise).collect();
        Shape { kind: sort.kind, part: raise(&sort.part), arguments }
    };
    let found = (0..most).map(|turn| (start + turn) % most).find(|&more| {
        let firsts = made.iter().filter(|sort| is_of(sort, own));
        firsts.into_iter().any(|sort| crowd::is_near_end(index::place_of(&raised(sort, more))))
    });
    if let Some(more) = found {
        made.iter_mut().for_each(|sort| *sort = raised(sort, more));
        pad::before(list, more, 0);
    }
}

/// Whether the parts of a sort are among the first ones of a list, so that more sorts at its end leave their numbers.
fn is_of(sort: &Shape, count: usize) -> bool {
    usize::from(sort.part) < count && sort.arguments.iter().all(|&argument| usize::from(argument) < count)
}

/// The place of a sort that is made, or else of one of the list: one near the end, where there is one.
fn slot(rng: &mut Rng, list: &Given, own: usize, made: &[Shape]) -> usize {
    let memory = list.memory();
    let there = (0..list.sorts.len()).map(|number| memory.shape(number));
    let made = made.iter().filter(|sort| is_of(sort, own)).cloned();
    let places: Vec<usize> = match made.clone().next() {
        Some(_) => made.map(|sort| index::place_of(&sort)).collect(),
        None => there.map(|sort| index::place_of(&sort)).collect(),
    };
    let near_end = places.iter().copied().find(|&place| crowd::is_near_end(place));
    near_end.unwrap_or_else(|| rng.pick(&places))
}

/// Sorts in the order in which they are made, as rows of the list.
fn append(list: &mut Given, made: &[Shape]) {
    for sort in made {
        let function = sort.kind == kind::FUNCTION;
        let start = if function { list.entries.len() as u16 } else { 0 };
        list.entries.extend(&sort.arguments);
        list.sorts.push(Row { kind: sort.kind, part: sort.part, start, count: sort.arguments.len() as u16 });
    }
}

/// Appends sorts of the crowd before a slot up to a count.
fn fill(rng: &mut Rng, list: &mut Given, slot: usize, count: usize) {
    let there: HashSet<(u16, u16)> = list.sorts.iter().map(|row| (row.kind, row.part)).collect();
    let each = crowd::each(rng);
    let more = count.saturating_sub(list.sorts.len());
    let crowd = CROWD.before(slot, each).filter(|sort| !there.contains(sort)).take(more);
    list.sorts.extend(crowd.map(|(kind, number)| Row::plain(kind, number)));
}

#[cfg(test)]
mod tests {
    use lists::index::Walks;

    use crate::cases::Cases;
    use crate::cases::Class;

    #[test]
    fn sorts_are_crowded() {
        let cases = Cases::new(Class::Clash, 1);
        let (mut long, mut round, mut full) = (0, 0, 0);
        for index in 0..500 {
            let memory = cases.case(index).expect("a random class has no end").call.memory;
            let walks = Walks::of((0..memory.sort_count).map(|number| memory.shape(number)));
            long += usize::from(walks.longest > 20);
            round += usize::from(walks.round);
            full += usize::from(memory.sort_count == 1_024);
        }
        assert!(long > 150 && round > 50 && full > 50, "{long} with long walks, {round} round the end, {full} full");
    }
}
