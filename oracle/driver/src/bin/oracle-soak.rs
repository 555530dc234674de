//! Makes lists and asks about them in one process, without text, and counts the answers.
//!
//! Stops at the first list on which the Rust panics, the two builds differ, a planted fault is not
//! named, or the list does not come back from its text as it was.

use std::collections::BTreeMap;
use std::process::ExitCode;
use std::time::Instant;

use lists::generate::Case;
use lists::generate::case;
use lists::memory::constraint;
use lists::read::Reader;
use lists::write::list_text;
use oracle::ask::Asked;
use oracle::ask::ask;
use oracle::options;
use oracle::options::Options;

fn main() -> ExitCode {
    options::main("oracle-soak", run)
}

#[derive(Default)]
struct Counts {
    lists: u64,
    questions: u64,
    /// Answers by code, and by what was answered where the question is not `solve`.
    answers: BTreeMap<(u16, String), u64>,
    /// Constraints by kind.
    constraints: [u64; 5],
    with_bindings: u64,
    with_dropped: u64,
    with_nodes: u64,
    with_give_back: u64,
}

fn run(options: &Options) -> Result<(), String> {
    let start = Instant::now();
    let mut counts = Counts::default();
    for index in options.from..options.from.saturating_add(options.count) {
        let Some(case) = case(options.class, options.seed, options.size, index) else { break };
        soak(&case, &mut counts).map_err(|message| format!("{message}\n{}", list_text(&case.list)))?;
    }
    report(options, &counts, start.elapsed().as_secs_f64());
    Ok(())
}

fn soak(case: &Case, counts: &mut Counts) -> Result<(), String> {
    counts.lists += 1;
    counts.with_bindings += u64::from(case.list.bindings.iter().any(|&word| word != lists::memory::FREE));
    for row in &case.list.constraints {
        if let Some(count) = counts.constraints.get_mut(usize::from(row[0])) {
            *count += 1;
        }
    }
    comes_back(case)?;
    let memory = case.list.memory();
    for &question in &case.questions {
        let asked = ask(&memory, question).map_err(|failure| failure.to_string())?;
        if case.planted.is_some_and(|code| code != asked.answer.code) {
            return Err(format!("fault {:?} was planted, the answer is {}", case.planted, asked.answer));
        }
        counts.add(&asked);
    }
    Ok(())
}

/// Writes the list and reads it again.
fn comes_back(case: &Case) -> Result<(), String> {
    let mut reader = Reader::new();
    for line in list_text(&case.list).lines() {
        reader.read(line.as_bytes()).map_err(|bad| bad.to_string())?;
    }
    match reader.list() == Some(&case.list) {
        true => Ok(()),
        false => Err("the list does not come back from its text".to_string()),
    }
}

impl Counts {
    fn add(&mut self, asked: &Asked) {
        self.questions += 1;
        *self.answers.entry(asked.answer.label()).or_default() += 1;
        self.with_dropped += u64::from(asked.tally.dropped > 0);
        self.with_nodes += u64::from(asked.tally.nodes_made > 0);
        self.with_give_back += u64::from(asked.tally.nodes_made > asked.tally.nodes_peak);
    }
}

fn report(options: &Options, counts: &Counts, seconds: f64) {
    let answer = |((code, label), count): (&(u16, String), &u64)| match label.is_empty() {
        true => format!("{code}: {count}"),
        false => format!("{code} {label}: {count}"),
    };
    let answers: Vec<String> = counts.answers.iter().map(answer).collect();
    let [subs, literals, disjunctions, comprehensions, joins] =
        [constraint::SUB, constraint::LIT, constraint::DISJUNCTION, constraint::COMPREHENSION, constraint::JOIN]
            .map(|kind| counts.constraints[usize::from(kind)]);
    println!(
        "class {} seed {} size {} from {}: {} lists, {} questions, {seconds:.1} s",
        options.class.name(),
        options.seed,
        options.size,
        options.from,
        counts.lists,
        counts.questions
    );
    println!("  answers: {}", answers.join(", "));
    println!(
        "  constraints: {subs} Sub, {literals} Lit, {disjunctions} Disjunction, {comprehensions} Comprehension, {joins} Join"
    );
    println!(
        "  lists with given bindings: {}; answers with dropped prefixes: {}, with nodes made: {}, with node room used again: {}",
        counts.with_bindings, counts.with_dropped, counts.with_nodes, counts.with_give_back
    );
}
