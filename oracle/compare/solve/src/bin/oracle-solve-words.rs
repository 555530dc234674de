//! Prints the recorded lists for the solver once more, as the words that the port is handed and leaves, for the program
//! that replays them in the gate. The port's library is not asked.

use std::process::ExitCode;

use common::options;
use common::options::Failure;
use common::options::Options;
use lists::memory::*;
use solve::call::Call;
use solve::cases::sample;
use solve::cases::written;
use solve::expected::Expected;
use solve::expected::Outcome;

/// At most so many words on a line.
const WORDS: usize = 16;

/// The slice of the index, and how many words it has.
const INDEX_SLICE: usize = 12;
const INDEX_WORDS: usize = 2048;

/// Random lists of more bytes are left out, but for so many that run out of room. Written ones may have any length.
const BYTES: usize = 900;
const FULL: usize = 6;

/// Words in the index at entry, as if sorts stood there. A refusal leaves them, and each other answer leaves zeros. Each
/// list has them at the next place.
const OTHERS: [u16; WORDS] = [1, 2, 3, 4, 5, 6, 7, 8, 9, 10, 11, 12, 13, 14, 15, 65_535];

fn main() -> ExitCode {
    options::main("oracle-solve-words", &[("seed", "1")], run)
}

fn run(options: &Options) -> Result<(), Failure> {
    let seed = options.number("seed")?;
    let (mut text, mut count, mut full) = (String::new(), 0, 0);
    let written = written().len();
    for (number, list) in sample(seed).into_iter().enumerate() {
        let memory = list.memory();
        if !held(&memory) {
            continue;
        }
        let expected = Expected::of(&memory).map_err(Failure::Run)?;
        if expected.code() == 14 {
            continue;
        }
        let room_ended = matches!(expected.code(), 15 | 16);
        let asked = format!("# {}\n{}", list.title, given(&memory));
        let answered = answered(memory, &expected);
        if number >= written && asked.len() + answered.len() > BYTES {
            if !room_ended || full == FULL {
                continue;
            }
            full += 1;
        }
        let at = WORDS * count % INDEX_WORDS;
        let left = if let Outcome::Refused(_) = expected.outcome { OTHERS } else { [0; WORDS] };
        count += 1;
        text += &asked;
        text += &lines('S', INDEX_SLICE, at, &OTHERS, false);
        text += &answered;
        text += &lines('X', INDEX_SLICE, at, &left, false);
    }
    print!("{}{text}", header(seed, count));
    Ok(())
}

fn header(seed: u64, count: usize) -> String {
    format!(
        "# {count} lists for the solver in words, and what it answers and leaves.
# Made in the folder oracle by: target/release/oracle-solve-words --seed {seed} > ../crates/replay_solve/stdin
# They are those of lists/recorded.txt, but for lists that are lent storage of other lengths than their ceilings, and most long
# ones of the random ones.
# The answers are those of the excerpt of merc; refusals are those of the model of the checks (lists/src/checks.rs).
# Each is lent other words in the index, which a refusal leaves and each other answer clears.
"
    )
}

/// The greatest count of rows or entries in storage that the program holds. It may be past the ceiling.
const MAX_COUNT: usize = 65_535;

/// Whether the program that replays holds such a list: storage at its ceiling, and no other count that says more than is given.
fn held(memory: &Memory) -> bool {
    memory.sorts.len() == SORT_STORAGE
        && memory.nodes.len() == NODE_STORAGE
        && memory.variable_count == memory.bindings.len()
        && memory.expr_count == memory.exprs.len()
        && NAME * memory.name_count == memory.names.len()
        && CONSTRAINT * memory.constraint_count == memory.constraints.len()
        && OVERLOAD * memory.overload_count == memory.overloads.len()
        && memory.source_count == memory.sources.len()
        && memory.variable_count <= MAX_VARIABLES
        && memory.expr_count <= MAX_EXPRESSIONS
        && memory.name_count <= MAX_EXPRESSIONS
        && memory.constraint_count <= MAX_CONSTRAINTS
        && memory.overload_count <= MAX_OVERLOADS
        && memory.source_count <= MAX_SOURCES
        && memory.sort_count <= MAX_COUNT
        && memory.entry_count <= MAX_COUNT
        && memory.node_count <= MAX_COUNT
        && memory.node_entry_count <= MAX_COUNT
}

/// Lines of a letter, a slice, where the words begin, and words; lines of zeros are left out where `quiet`.
fn lines(letter: char, slice: usize, at: usize, words: &[u16], quiet: bool) -> String {
    let mut text = String::new();
    for (number, part) in words.chunks(WORDS).enumerate() {
        if quiet && part.iter().all(|word| *word == 0) {
            continue;
        }
        text += &format!("{letter} {slice} {}", at + WORDS * number);
        for word in part {
            text += &format!(" {word}");
        }
        text.push('\n');
    }
    text
}

fn given(memory: &Memory) -> String {
    let mut text = format!(
        "L {} {} {} {} {} {} {} {} {} {} {}\n",
        memory.sort_count,
        memory.entry_count,
        memory.node_count,
        memory.node_entry_count,
        memory.variable_count,
        memory.expr_count,
        memory.name_count,
        memory.constraint_count,
        memory.overload_count,
        memory.source_count,
        memory.default,
    );
    text += &lines('S', 0, 0, &memory.sorts[..ROW * memory.sort_count.min(MAX_SORTS)], true);
    text += &lines('S', 0, ENTRIES_AT, &memory.sorts[ENTRIES_AT..][..memory.entry_count.min(MAX_ENTRIES)], true);
    text += &lines('S', 1, 0, &memory.nodes[..ROW * memory.node_count.min(MAX_NODES)], true);
    text += &lines(
        'S',
        1,
        NODE_ENTRIES_AT,
        &memory.nodes[NODE_ENTRIES_AT..][..memory.node_entry_count.min(MAX_NODE_ENTRIES)],
        true,
    );
    for (slice, words) in
        [&memory.bindings, &memory.exprs, &memory.names, &memory.constraints, &memory.overloads, &memory.sources]
            .into_iter()
            .enumerate()
    {
        text += &lines('S', 2 + slice, 0, words, true);
    }
    text
}

fn answered(memory: Memory, expected: &Expected) -> String {
    let packed = expected.packed(&memory);
    let (rows, entries) = (memory.sort_count, memory.entry_count);
    let mut text = format!(
        "Q {} {} {} {} {}\n",
        packed & 0xff,
        packed >> 8 & 0xffff,
        packed >> 24 & 0xffff,
        packed >> 40 & 0xfff,
        packed >> 52,
    );
    let mut call = Call {
        typing: vec![0; 3 * memory.expr_count],
        measure: vec![0; (packed >> 40 & 0xfff) as usize],
        choices: vec![0; 2 * (packed >> 52) as usize],
        scratch: vec![0; SCRATCH],
        index: vec![0; INDEX],
        memory,
    };
    expected.leave(&mut call);
    if let Outcome::Searched { .. } = expected.outcome {
        let (kept, kept_entries) = ((packed >> 8 & 0xffff) as usize, (packed >> 24 & 0xffff) as usize);
        text += &lines('X', 0, ROW * rows, &call.memory.sorts[ROW * rows..ROW * kept], false);
        text += &lines(
            'X',
            0,
            ENTRIES_AT + entries,
            &call.memory.sorts[ENTRIES_AT + entries..ENTRIES_AT + kept_entries],
            false,
        );
    }
    if expected.code() == 0 {
        for (slice, words) in [&call.typing, &call.measure, &call.choices].into_iter().enumerate() {
            text += &lines('X', 8 + slice, 0, words, false);
        }
    }
    text + &lines('X', 2, 0, &call.memory.bindings, false)
}
