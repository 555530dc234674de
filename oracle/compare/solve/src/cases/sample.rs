//! The lists of the recorded sample, which a program that has no generator reads.

use std::collections::HashMap;

use lists::generate;
use lists::given::Counted;
use lists::given::Given;
use lists::memory::*;
use lists::question::Question;
use lists::read::Item;
use lists::read::Reader;
use lists::rng::Rng;
use lists::write::list_text;

use crate::cases::Cases;
use crate::cases::Class;
use crate::cases::pad;
use crate::expected::Expected;

const WRITTEN: [&str; 2] =
    [include_str!("../../../../lists/situations.txt"), include_str!("../../../../lists/readings.txt")];

/// How many lists of each class the sample has, how many of these may have the same code, and the most bytes of one.
const LISTS: [(Class, usize, usize, usize); 8] = [
    (Class::Few, 600, 260, 150),
    (Class::Solve, 350, 200, 165),
    (Class::Join, 250, 130, 165),
    (Class::Choice, 250, 130, 180),
    (Class::Dropped, 60, 30, 310),
    (Class::Edge, 250, 70, 180),
    (Class::Full, 15, 6, 200),
    (Class::Deep, 12, 6, 300),
];
/// Typings of which the disjunctions come out of expression order: how many, and the most bytes of one.
const OUT_OF_ORDER: usize = 40;
const OUT_OF_ORDER_BYTES: usize = 400;
const DAMAGED: usize = 420;
const DAMAGED_BYTES: usize = 140;

/// So many lists of a class are looked at, and no more.
const MOST_LOOKED_AT: u64 = 30_000;

/// The situations and readings that ask for the search, lists of the random classes, typings of which the disjunctions
/// come out of expression order, and damaged lists. The title of
/// a random list is its class and its number, that of a damaged one those of `oracle-gen`.
pub fn sample(seed: u64) -> Vec<Given> {
    let mut lists = written();
    for (class, count, same, bytes) in LISTS {
        lists.extend(random(class, seed, same, bytes).take(count));
    }
    lists.extend(out_of_order(seed).take(OUT_OF_ORDER));
    let damaged = (0..).map_while(|index| {
        let mut case = generate::case(generate::Class::Damaged, seed, 1, index)?;
        case.list.title = format!("gen damaged {index}");
        Some(case)
    });
    let damaged = damaged.filter(|case| case.questions == [Question::Solve]).map(|case| case.list);
    lists.extend(damaged.filter(|list| list_text(list).len() <= DAMAGED_BYTES).take(DAMAGED));
    lists
}

/// Lists of a class that are short enough.
fn short(class: Class, seed: u64, bytes: usize) -> impl Iterator<Item = Given> {
    let cases = Cases::new(class, seed);
    let named = (0..MOST_LOOKED_AT).map_while(move |index| {
        let mut list = cases.list(&mut Rng::of_list(seed, index), index)?;
        list.title = format!("{} {index}", class.name());
        Some(list)
    });
    named.filter(move |list| list_text(list).len() <= bytes)
}

/// Of these up to `same` of each code.
fn random(class: Class, seed: u64, same: usize, bytes: usize) -> impl Iterator<Item = Given> {
    let mut codes = HashMap::new();
    short(class, seed, bytes).filter(move |list| {
        let code = Expected::of(&list.memory()).expect("the judges agree").code();
        let taken: &mut usize = codes.entry(code).or_default();
        *taken += 1;
        *taken <= same
    })
}

/// Lists that have a typing, and disjunctions out of expression order.
fn out_of_order(seed: u64) -> impl Iterator<Item = Given> {
    short(Class::Choice, seed, OUT_OF_ORDER_BYTES).filter(|list| {
        let expected = Expected::of(&list.memory()).expect("the judges agree");
        expected.code() == 0 && !expected.tally.choices.is_sorted()
    })
}

/// The lists of both files that ask for the search. Where one has ceilings of its own, the same room is left by
/// padding.
pub fn written() -> Vec<Given> {
    let mut lists = Vec::new();
    let mut reader = Reader::new();
    for line in WRITTEN.iter().flat_map(|text| text.lines()) {
        if let Item::Question(Question::Solve) = reader.read(line.as_bytes()).expect("the files are well formed") {
            let mut list = reader.list().expect("a question comes after a list").clone();
            pad_to_ceilings(&mut list);
            lists.push(list);
        }
    }
    lists
}

fn pad_to_ceilings(list: &mut Given) {
    let given = std::mem::take(&mut list.ceilings);
    let usual = Ceilings::default();
    let padded = |list: &Given, counted: Counted, by: usize| list.rows(counted) + by;
    let sorts = padded(list, Counted::Sorts, usual.sorts - given.sorts);
    pad::sorts(list, sorts);
    let entries = padded(list, Counted::Entries, usual.entries - given.entries);
    pad::entries(&mut list.entries, entries);
    let nodes = padded(list, Counted::Nodes, usual.nodes - given.nodes);
    pad::nodes(list, nodes);
    let node_entries = padded(list, Counted::NodeEntries, usual.node_entries - given.node_entries);
    pad::entries(&mut list.node_entries, node_entries);
}

#[cfg(test)]
mod tests {
    use lists::answer::Answer;
    use lists::verdict::Heard;
    use lists::verdict::Reply;
    use lists::verdict::Shape;
    use lists::verdict::Tally;
    use lists::verdict::Verdict;

    use super::*;
    use crate::call::Call;
    use crate::call::Lent;
    use crate::call::Slice;
    use crate::port::Entry;
    use crate::port::Port;

    const RECORDED: &str = include_str!("../../../../lists/recorded.txt");

    /// The answer line of a list by what an entry of the library answers and leaves.
    fn answered(entry: Entry, list: &Given) -> Answer {
        let memory = list.memory();
        let mut call = Call { memory, ..Call::default() };
        call.scratch = vec![7; call.memory.scratch];
        call.index = vec![7; call.memory.index];
        call.typing = vec![7; call.memory.out_typing];
        call.measure = vec![7; call.memory.out_measure];
        call.choices = vec![7; call.memory.out_choices];
        let mut lent = Lent::new(&call);
        let packed = Port::Library(entry).ask(&mut lent, &call.memory);
        let part = |from: u32, bits: u32| (packed >> from & ((1 << bits) - 1)) as usize;
        let verdict = match part(0, 8) {
            0 => typing(&lent, call.memory.expr_count, part(40, 12)),
            17 => Verdict::NoTyping,
            18 => Verdict::Ambiguous { measure: Vec::new() },
            code => return Answer::code(code as u16),
        };
        let sorts = Memory { sorts: lent.words(Slice::Sorts).to_vec(), ..Memory::default() };
        let new = (call.memory.sort_count..part(8, 16)).map(|number| {
            let row = sorts.sort(number);
            let arguments = if row.kind == kind::FUNCTION { sorts.sort_arguments(row) } else { &[] };
            Shape { kind: row.kind, part: row.part, arguments: arguments.to_vec() }
        });
        let heard = Heard { reply: Reply::Solve(verdict), new: new.collect() };
        let choices = lent.words(Slice::OutChoices).chunks_exact(2).take(part(52, 12));
        let tally = Tally { choices: choices.map(|row| (row[0], row[1])).collect(), ..Tally::default() };
        Answer::heard(&heard, &tally, call.memory.sort_count).without("nodes")
    }

    fn typing(lent: &Lent, expressions: usize, components: usize) -> Verdict {
        let rows = || lent.words(Slice::OutTyping).chunks_exact(3).take(expressions);
        Verdict::Typing {
            sorts: rows().map(|row| row[0]).collect(),
            names: rows().map(|row| (row[1], row[2])).collect(),
            measure: lent.words(Slice::OutMeasure)[..components].iter().map(|&word| word as u8).collect(),
        }
    }

    /// The recorded sample, asked again.
    #[test]
    fn recorded_answers_are_given_again() {
        let mut reader = Reader::new();
        let mut answers = 0;
        for line in RECORDED.lines() {
            if let Item::Answer(answer) = reader.read(line.as_bytes()).expect("the sample is well formed") {
                let list = reader.list().expect("an answer comes after a list");
                for (entry, name) in Entry::ALL {
                    assert_eq!(answered(entry, list), answer, "{name}, {}", list.title);
                }
                answers += 1;
            }
        }
        assert!(answers > 2_000, "{answers} answers");
    }

    /// The answers that were written by hand.
    #[test]
    fn written_answers_are_given() {
        for text in WRITTEN {
            let mut reader = Reader::new();
            let mut solve = false;
            for line in text.lines() {
                match reader.read(line.as_bytes()).expect("the files are well formed") {
                    Item::Question(question) => solve = question == Question::Solve,
                    Item::Answer(answer) if solve => {
                        let mut list = reader.list().expect("an answer comes after a list").clone();
                        pad_to_ceilings(&mut list);
                        let sections = answer.without("nodes");
                        for (entry, name) in Entry::ALL {
                            let fresh = answered(entry, &list);
                            let what = format!("{name}, {}: {fresh}, written {sections}", list.title);
                            assert!(sections.agrees_with(&fresh), "{what}");
                        }
                    }
                    _ => {}
                }
            }
        }
    }
}
