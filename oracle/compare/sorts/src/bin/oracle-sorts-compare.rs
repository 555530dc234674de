//! Asks the proved library and the excerpt of merc the same questions and compares answers and
//! memory. Stops at the first difference.

use std::collections::BTreeMap;
use std::process::ExitCode;
use std::time::Instant;

use common::options;
use common::options::Failure;
use common::options::Options;
use lists::index::Walks;
use lists::memory::ENTRIES_AT;
use lists::memory::INDEX;
use lists::memory::MAX_SORTS;
use lists::memory::Memory;
use lists::memory::ROW;
use sorts::cases::Case;
use sorts::cases::Cases;
use sorts::cases::Class;
use sorts::compare::compare_all;
use sorts::expected::Expected;
use sorts::port;

fn main() -> ExitCode {
    options::main("oracle-sorts-compare", &[("class", "mixed"), ("seed", "1"), ("from", "0"), ("count", "1000")], run)
}

#[derive(Default)]
struct Counts {
    lists: u64,
    questions: u64,
    answers: BTreeMap<String, u64>,
    /// Answers that stored sorts, those of them that are none, and the sorts stored.
    made: u64,
    made_with_none: u64,
    sorts: u64,
    /// Calls that passed their checks over an index longer than it has to be; calls after one that ended with 15, in the same memory.
    longer: u64,
    after_15: u64,
    /// Calls of join and meet with 1,024 sorts at their end.
    full: u64,
    /// Of joins and meets that were answered: the most slots looked at to enter a sort, and how many went round the end.
    longest_walk: usize,
    round: u64,
}

fn run(options: &Options) -> Result<(), Failure> {
    let class = class(options.text("class"))?;
    let (seed, from, count) = (options.number("seed")?, options.number("from")?, options.number("count")?);
    let start = Instant::now();
    let cases = Cases::new(class, seed);
    let mut counts = Counts::default();
    for index in from..from.saturating_add(count) {
        let Some(case) = cases.case(index) else { break };
        ask_all(&case, &mut counts)
            .map_err(|message| Failure::Run(format!("class {} seed {seed} number {index}: {message}", class.name())))?;
    }
    let seconds = start.elapsed().as_secs_f64();
    println!(
        "class {} seed {seed} from {from}: {} lists, {} questions, 0 differences, {seconds:.1} s",
        class.name(),
        counts.lists,
        counts.questions
    );
    counts.print();
    Ok(())
}

fn class(name: &str) -> Result<Class, Failure> {
    let found = Class::ALL.iter().find(|(_, other)| *other == name);
    let all = Class::ALL.map(|(_, name)| name).join(", ");
    found.map(|&(class, _)| class).ok_or_else(|| Failure::Option(format!("`{name}` is not one of {all}")))
}

fn ask_all(case: &Case, counts: &mut Counts) -> Result<(), String> {
    counts.lists += 1;
    let mut unplanted = None;
    let mut after_15 = false;
    let compared = compare_all(port::ask, case, |expected, call| {
        if case.planted.is_some_and(|code| *expected != Expected::Refused(code)) {
            unplanted.get_or_insert_with(|| format!("a fault was planted, expected is {expected:?}"));
        }
        counts.after_15 += u64::from(after_15);
        after_15 = case.one_memory && (after_15 || *expected == Expected::NoRoom);
        counts.add(expected, &call.memory);
    });
    let all = compared.and(unplanted.map_or(Ok(()), Err));
    all.map_err(|message| format!("{message}\n{}", shown(&case.call.memory)))
}

/// The counts, and the lent words of the rows and entries counted.
fn shown(memory: &Memory) -> String {
    let words = |from: usize, count: usize| {
        let rest = memory.sorts.get(from..).unwrap_or_default();
        &rest[..count.min(rest.len())]
    };
    format!(
        "{} sorts, {} entries, {} words lent, {} of index\nrows {:?}\nentries {:?}",
        memory.sort_count,
        memory.entry_count,
        memory.sorts.len(),
        memory.index,
        words(0, memory.sort_count.saturating_mul(ROW)),
        words(ENTRIES_AT, memory.entry_count)
    )
}

impl Counts {
    fn add(&mut self, expected: &Expected, memory: &Memory) {
        self.questions += 1;
        *self.answers.entry(expected.label()).or_default() += 1;
        let made = expected.made(memory) as u64;
        self.sorts += made;
        self.made += u64::from(made > 0);
        self.made_with_none += u64::from(made > 0 && matches!(expected, Expected::Bound { sort: None, .. }));
        self.longer += u64::from(expected.makes() && memory.index > INDEX);
        if let Expected::Bound { sorts, .. } = expected {
            let walks = Walks::of(sorts.iter().cloned());
            self.longest_walk = self.longest_walk.max(walks.longest);
            self.round += u64::from(walks.round);
            self.full += u64::from(sorts.len() == MAX_SORTS);
        }
    }

    fn print(&self) {
        let answers: Vec<String> = self.answers.iter().map(|(label, count)| format!("{label}: {count}")).collect();
        println!("  answers: {}", answers.join(", "));
        println!(
            "  answers that stored sorts: {}, of them none: {}; sorts stored: {}",
            self.made, self.made_with_none, self.sorts
        );
        println!(
            "  index: longer than 2,048 words: {}, longest walk: {}, with a walk round the end: {}, 1,024 sorts: {}; calls after a 15 in the same memory: {}",
            self.longer, self.longest_walk, self.round, self.full, self.after_15
        );
    }
}
