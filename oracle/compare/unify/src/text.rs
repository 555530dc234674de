//! Lists, questions and answers as lines of numbers, which a small program can read.
//!
//! `L s e n f v` begins a list of s sorts, e entries, n nodes, f node entries and v variables. Lines
//! `r kind part start count` give the sorts, `a word...` the entries, `n kind part start count` the
//! nodes, `b word...` the node entries, `v word...` the bindings; at most 16 words on a line. `w
//! variable place` is a binding that the next question makes; `u lhs rhs answer` is a question.

use lists::memory::*;
use lists::read::CONTAINERS;
use lists::write::place_word;

use crate::expected::Expected;

const WORDS_A_LINE: usize = 16;

/// The lines of a list. Of one whose counts say more than is lent, only what is lent.
pub fn list_text(memory: &Memory) -> String {
    let counts =
        [memory.sort_count, memory.entry_count, memory.node_count, memory.node_entry_count, memory.variable_count];
    let mut text = format!("L {}\n", counts.map(|count| count.to_string()).join(" "));
    let [sorts, entries, nodes, node_entries, variables] = counts;
    text += &rows("r", first(&memory.sorts, 0, sorts.saturating_mul(ROW)));
    text += &lines("a", first(&memory.sorts, ENTRIES_AT, entries), WORDS_A_LINE);
    text += &rows("n", first(&memory.nodes, 0, nodes.saturating_mul(ROW)));
    text += &lines("b", first(&memory.nodes, NODE_ENTRIES_AT, node_entries), WORDS_A_LINE);
    text += &lines("v", first(&memory.bindings, 0, variables), WORDS_A_LINE);
    text
}

fn rows(letter: &str, words: &[u16]) -> String {
    lines(letter, words, ROW)
}

/// The first `count` words from a place on, or as many as there are.
fn first(words: &[u16], at: usize, count: usize) -> &[u16] {
    let rest = words.get(at..).unwrap_or_default();
    &rest[..count.min(rest.len())]
}

fn lines(letter: &str, words: &[u16], most: usize) -> String {
    words.chunks(most).map(|line| format!("{letter} {}\n", numbers(line))).collect()
}

fn numbers(words: &[u16]) -> String {
    words.iter().map(u16::to_string).collect::<Vec<_>>().join(" ")
}

/// The sorts past the first six, the nodes and the bindings of an accepted list, for people.
pub fn spelled(memory: &Memory) -> String {
    let sorts = (6..memory.sort_count).map(|number| {
        let row = memory.sort(number);
        let arguments = if row.kind == kind::FUNCTION { memory.sort_arguments(row) } else { &[] };
        format!("s{number}: {}\n", row_words(row, arguments))
    });
    let nodes = (0..memory.node_count).map(|number| {
        let row = memory.node(number);
        let arguments = if row.kind == kind::FUNCTION { memory.node_arguments(row) } else { &[] };
        format!("n{number}: {}\n", row_words(row, arguments))
    });
    let bindings = memory.bindings[..memory.variable_count].iter().enumerate();
    let bindings = bindings.filter(|&(_, &place)| place != FREE);
    let bindings = bindings.map(|(variable, &place)| format!("v{variable} is bound to {}\n", place_word(place)));
    sorts.chain(nodes).chain(bindings).collect()
}

fn row_words(row: Row, arguments: &[u16]) -> String {
    match row.kind {
        kind::VARIABLE => format!("v{}", row.part),
        kind::DEF => format!("Def {}", row.part),
        kind::TYPE_VAR => format!("TypeVar {}", row.part),
        kind::FUNCTION => {
            let arguments: String = arguments.iter().map(|&argument| place_word(argument) + " ").collect();
            format!("fn {arguments}-> {}", place_word(row.part))
        }
        container => format!("{} {}", CONTAINERS[usize::from(container - kind::LIST)], place_word(row.part)),
    }
}

/// The bindings that a question makes, then the question with its answer.
pub fn question_text(memory: &Memory, (lhs, rhs): (u16, u16), expected: &Expected) -> String {
    let mut text = String::new();
    if let Expected::Yes { bindings, .. } = expected {
        for (variable, (place, given)) in bindings.iter().zip(&memory.bindings).enumerate() {
            if place != given {
                text += &format!("w {variable} {place}\n");
            }
        }
    }
    text + &format!("u {lhs} {rhs} {}\n", expected.packed())
}

#[cfg(test)]
mod tests {
    use common::guard::guarded;

    use super::*;
    use crate::compare::Lent;
    use crate::port::Port;

    const RECORDED: &str = include_str!("../../../../crates/replay_unify/stdin");

    /// The list under reading, its words so far, and the bindings that the next question must leave.
    struct Replay {
        memory: Memory,
        filled: [usize; 5],
        expected: Vec<u16>,
    }

    impl Replay {
        fn begin(counts: &[u64]) -> Replay {
            let counts: Vec<usize> = counts.iter().map(|&count| count as usize).collect();
            let [sort_count, entry_count, node_count, node_entry_count, variable_count] = counts[..] else {
                panic!("a list has five counts")
            };
            let memory = Memory {
                sorts: vec![0; SORT_STORAGE],
                sort_count,
                entry_count,
                nodes: vec![0; NODE_STORAGE],
                node_count,
                node_entry_count,
                bindings: vec![FREE; variable_count],
                variable_count,
                ..Memory::default()
            };
            Replay { expected: memory.bindings.clone(), memory, filled: [0, ENTRIES_AT, 0, NODE_ENTRIES_AT, 0] }
        }

        fn give(&mut self, list: usize, numbers: &[u64]) {
            let memory = &mut self.memory;
            let slice = [&mut memory.sorts, &mut memory.nodes, &mut memory.bindings];
            let words = slice.into_iter().nth(list / 2).expect("there are three slices");
            for &number in numbers {
                words[self.filled[list]] = number as u16;
                self.filled[list] += 1;
            }
            self.expected.clone_from(&memory.bindings);
        }

        fn ask(&mut self, lhs: u16, rhs: u16, answer: u64) {
            let memory = &self.memory;
            let ends = [
                ROW * memory.sort_count,
                ENTRIES_AT + memory.entry_count,
                ROW * memory.node_count,
                NODE_ENTRIES_AT + memory.node_entry_count,
                memory.variable_count,
            ];
            assert_eq!(self.filled, ends, "the list is complete");
            let mut lent = Lent::new(memory);
            assert_eq!(Port::Library.ask(&mut lent, memory, lhs, rhs), answer);
            assert_eq!(lent.bindings, guarded(&self.expected));
            self.expected.clone_from(&memory.bindings);
        }
    }

    /// The recorded sample, asked again by what its head says of its form.
    #[test]
    fn recorded_answers_are_given_again() {
        let mut replay = Replay::begin(&[0; 5]);
        let mut questions = 0;
        for line in RECORDED.lines().filter(|line| !line.starts_with('#')) {
            let mut words = line.split(' ');
            let letter = words.next().expect("a line has a letter");
            let numbers: Vec<u64> = words.map(|word| word.parse().expect("then numbers")).collect();
            match letter {
                "L" => replay = Replay::begin(&numbers),
                "r" => replay.give(0, &numbers),
                "a" => replay.give(1, &numbers),
                "n" => replay.give(2, &numbers),
                "b" => replay.give(3, &numbers),
                "v" => replay.give(4, &numbers),
                "w" => replay.expected[numbers[0] as usize] = numbers[1] as u16,
                "u" => {
                    replay.ask(numbers[0] as u16, numbers[1] as u16, numbers[2]);
                    questions += 1;
                }
                other => panic!("no line begins with {other}"),
            }
        }
        assert!(questions > 2_000, "{questions} questions");
    }
}
