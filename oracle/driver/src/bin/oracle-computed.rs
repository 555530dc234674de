//! Reads lists with questions and writes those that ask for the search as an antt module, with the excerpt's answers.
//! How many there are, by answer and by what they have, is said on standard error.

use std::collections::BTreeMap;
use std::io;
use std::io::BufRead;
use std::io::Write;
use std::process::ExitCode;

use lists::given::Given;
use lists::memory::*;
use lists::question::Question;
use lists::read::Item;
use lists::read::Reader;
use oracle::ask::Asked;
use oracle::ask::ask;
use oracle::computed::Case;
use oracle::computed::module;

const USAGE: &str = "usage: oracle-computed [OPTION VALUE]... < LISTS > MODULE.antt
  --each N     lists to a proof (default: all to one)
  --most N     at most so many lists (default: all)
  --code N     only lists with this answer, or with one of several such
  --with FACT  only lists that have this, one of what is counted on standard error; several such: all of them";

fn main() -> ExitCode {
    match run() {
        Ok(()) => ExitCode::SUCCESS,
        Err(message) => {
            eprintln!("oracle-computed: {message}");
            ExitCode::from(2)
        }
    }
}

fn run() -> Result<(), String> {
    let options = Options::read()?;
    let mut counts = Counts::default();
    let mut cases = Vec::new();
    let mut reader = Reader::new();
    for line in io::stdin().lock().split(b'\n') {
        let line = line.map_err(|error| error.to_string())?;
        let item = reader.read(&line).map_err(|bad| bad.to_string())?;
        if !matches!(item, Item::Question(Question::Solve)) || cases.len() == options.most {
            continue;
        }
        let list = reader.list().expect("a question comes after `list`");
        let asked = ask(&list.memory(), Question::Solve).map_err(|failure| failure.to_string())?;
        let facts = facts(list, &asked);
        if options.want(asked.answer.code, &facts) {
            match Case::new(list, &asked) {
                Ok(case) => {
                    counts.add(asked.answer.code, &facts);
                    cases.push(case);
                }
                Err(why) => *counts.left_out.entry(why).or_default() += 1,
            }
        }
    }
    let module = module(&cases, options.each);
    io::stdout().write_all(module.as_bytes()).map_err(|error| error.to_string())?;
    counts.report();
    Ok(())
}

struct Options {
    each: usize,
    most: usize,
    codes: Vec<u16>,
    facts: Vec<String>,
}

impl Options {
    fn read() -> Result<Options, String> {
        let mut options = Options { each: usize::MAX, most: usize::MAX, codes: Vec::new(), facts: Vec::new() };
        let mut arguments = std::env::args().skip(1);
        while let Some(option) = arguments.next() {
            let value = arguments.next().ok_or_else(|| format!("expected a value after `{option}`\n{USAGE}"))?;
            let bad = || format!("unexpected `{value}` after `{option}`\n{USAGE}");
            match option.as_str() {
                "--each" => options.each = value.parse().ok().filter(|&each| each > 0).ok_or_else(bad)?,
                "--most" => options.most = value.parse().map_err(|_| bad())?,
                "--code" => options.codes.push(value.parse().map_err(|_| bad())?),
                "--with" => options.facts.push(value),
                _ => return Err(format!("unknown option `{option}`\n{USAGE}")),
            }
        }
        Ok(options)
    }

    fn want(&self, code: u16, facts: &[(&str, bool)]) -> bool {
        let holds = |name: &String| facts.iter().any(|&(fact, holds)| holds && fact == name);
        (self.codes.is_empty() || self.codes.contains(&code)) && self.facts.iter().all(holds)
    }
}

/// What a list has, and what its search did.
fn facts(list: &Given, asked: &Asked) -> [(&'static str, bool); 15] {
    let of_kind = |kind: u16| list.constraints.iter().filter(move |row| row[0] == kind);
    let has = |kind: u16| of_kind(kind).next().is_some();
    let kept = asked.heard.as_ref().map_or(0, |heard| heard.new.len());
    let nests = nests(&list.sorts, &list.entries, 0) || nests(&list.nodes, &list.node_entries, FIRST_NODE);
    [
        ("Sub", has(constraint::SUB)),
        ("Lit", has(constraint::LIT)),
        ("Disjunction", has(constraint::DISJUNCTION)),
        ("empty Disjunction", of_kind(constraint::DISJUNCTION).any(|row| row[4] == 0)),
        ("Comprehension", has(constraint::COMPREHENSION)),
        ("Join", has(constraint::JOIN)),
        ("Join of a node", of_kind(constraint::JOIN).any(|row| joins_node(list, row))),
        ("function of a function", nests),
        ("given binding", list.bindings.iter().any(|&word| word != FREE)),
        ("base name", !list.names.is_empty()),
        ("choice handed out", asked.answer.code == 0 && !asked.tally.choices.is_empty()),
        ("new sort kept", kept > 0),
        ("node made", asked.tally.nodes_made > 0),
        ("node room used again", asked.tally.nodes_made > asked.tally.nodes_peak),
        ("prefix dropped", asked.tally.dropped > 0),
    ]
}

/// Whether a node is among the sources of a Join.
fn joins_node(list: &Given, row: &[u16]) -> bool {
    let mut sources = list.sources.iter().skip(row[2].into()).take(row[3].into());
    sources.any(|&place| matches!(Place::of(place), Place::Node(_)))
}

/// Whether a function has one of the same list, whose places begin at `first`, as a part.
fn nests(rows: &[Row], entries: &[u16], first: u16) -> bool {
    let is_function = |place: u16| {
        let row = place.checked_sub(first).and_then(|number| rows.get(usize::from(number)));
        row.is_some_and(|row| row.kind == kind::FUNCTION)
    };
    rows.iter().filter(|row| row.kind == kind::FUNCTION).any(|row| {
        let mut arguments = entries.iter().skip(row.start.into()).take(row.count.into());
        is_function(row.part) || arguments.any(|&argument| is_function(argument))
    })
}

#[derive(Default)]
struct Counts {
    lists: usize,
    answers: BTreeMap<u16, usize>,
    facts: BTreeMap<&'static str, usize>,
    left_out: BTreeMap<String, usize>,
}

impl Counts {
    fn add(&mut self, code: u16, facts: &[(&'static str, bool)]) {
        self.lists += 1;
        *self.answers.entry(code).or_default() += 1;
        for &(name, holds) in facts {
            *self.facts.entry(name).or_default() += usize::from(holds);
        }
    }

    fn report(&self) {
        let answers: Vec<String> = self.answers.iter().map(|(code, count)| format!("{code}: {count}")).collect();
        let facts: Vec<String> = self.facts.iter().map(|(name, count)| format!("{name}: {count}")).collect();
        eprintln!("{} lists", self.lists);
        eprintln!("  answers: {}", answers.join(", "));
        eprintln!("  lists with: {}", facts.join(", "));
        for (why, count) in &self.left_out {
            eprintln!("  left out, {why}: {count}");
        }
    }
}
