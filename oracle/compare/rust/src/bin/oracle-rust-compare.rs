//! Asks the Rust crate and the excerpt of merc about the same lists. Stops at the first difference.

use std::collections::BTreeMap;
use std::process::ExitCode;
use std::time::Duration;
use std::time::Instant;

use common::options;
use common::options::Failure;
use common::options::Options;
use common::watch::Watch;
use julqetai::Problem;
use julqetai::Workspace;
use lists::given::Given;
use lists::rng::Rng;
use lists::write::list_text;
use rust_compare::compare;
use rust_compare::random;
use rust_compare::said;
use rust_compare::wrong::WRONG;
use solve::cases::Cases;
use solve::cases::Class;
use solve::expected::Expected;

/// The class of problems with any numbers in every field.
const WILD: &str = "wild";

/// Of so many lists the text of one is compared too.
const TEXTS: u64 = 8;

const DEFAULTS: [(&str, &str); 5] =
    [("class", "solve"), ("seed", "1"), ("from", "0"), ("count", "10000"), ("wrong", "none")];

fn main() -> ExitCode {
    options::main("oracle-rust-compare", &DEFAULTS, run)
}

/// How many lists had which answer, how many the safe types cannot say, and the longest solve.
#[derive(Default)]
struct Counts {
    codes: BTreeMap<u16, u64>,
    unsaid: u64,
    /// Problems that were asked, but that have no text for the excerpt.
    alone: u64,
    longest: Duration,
}

/// Lists number `from` on, as many as `count`.
fn run(options: &Options) -> Result<(), Failure> {
    let (seed, from, count) = (options.number("seed")?, options.number("from")?, options.number("count")?);
    let (name, wrong) = (options.text("class"), wrong(options.text("wrong"))?);
    let class = class(name)?;
    let start = Instant::now();
    let cases = class.map(|class| (class, Cases::new(class, seed)));
    let (mut workspace, mut counts) = (Workspace::new(), Counts::default());
    let watch = Watch::start(format!("class {name} seed {seed}"));
    let mut asked = 0;
    for index in from..from.saturating_add(count) {
        watch.at(index);
        let done = match &cases {
            None => wild(&mut workspace, &mut counts, seed, index),
            Some((class, cases)) => {
                let Some(list) = list(*class, cases, seed, index) else { break };
                one(&mut workspace, &mut counts, list, index, wrong)
            }
        };
        done.map_err(|message| Failure::Run(format!("class {name} seed {seed} number {index}: {message}? solve")))?;
        asked += 1;
    }
    let seconds = start.elapsed().as_secs_f64();
    let Counts { codes, unsaid, alone, longest } = counts;
    println!("class {name} seed {seed} from {from}: {} lists, 0 differences, {seconds:.1} s", asked - unsaid);
    let codes: Vec<String> = codes.iter().map(|(code, count)| format!("{code}: {count}")).collect();
    println!("  answers: {}", codes.join(", "));
    println!("  cannot be said: {unsaid}; without a text for the excerpt: {alone}; longest solve: {longest:.1?}");
    Ok(())
}

/// The list of a case. A damaged one is read back from its words, where it is one.
fn list(class: Class, cases: &Cases, seed: u64, index: u64) -> Option<Option<Given>> {
    Some(match class {
        Class::Short | Class::Damaged | Class::Words => {
            let memory = cases.case(index)?.call.memory;
            compare::is_list(&memory).then(|| solve::text::given(&memory))
        }
        _ => Some(cases.list(&mut Rng::of_list(seed, index), index)?),
    })
}

/// One list that the safe types may be able to say.
fn one(
    workspace: &mut Workspace,
    counts: &mut Counts,
    list: Option<Given>,
    index: u64,
    wrong: Option<fn(&mut Given)>,
) -> Result<(), String> {
    let Some(list) = list.and_then(|list| said::packed(&list)) else {
        counts.unsaid += 1;
        return Ok(());
    };
    let expected = Expected::of(&list.memory())?;
    let problem = match wrong {
        None => said::said(&list),
        Some(change) => {
            let mut changed = list.clone();
            change(&mut changed);
            said::said(&changed)
        }
    };
    let told = |message: String| format!("{message}\n{}", list_text(&list));
    timed(workspace, counts, &problem, list.sorts.len(), &expected).map_err(told)?;
    if wrong.is_none() && index % TEXTS == 0 {
        compare::same_given(&problem, &list).and_then(|()| compare::same_text(&problem, &list)).map_err(told)?;
    }
    Ok(())
}

/// A problem with any numbers. The excerpt is told its list by its text, where that can be read.
fn wild(workspace: &mut Workspace, counts: &mut Counts, seed: u64, index: u64) -> Result<(), String> {
    let problem = random::problem(&mut random::Rng(seed.wrapping_mul(0x2545_f491_4f6c_dd1d).wrapping_add(index)));
    let Ok(list) = compare::read(&problem) else {
        let start = Instant::now();
        let code = workspace.solve(&problem).map_or_else(julqetai::Refusal::code, |_| 0);
        counts.longest = counts.longest.max(start.elapsed());
        *counts.codes.entry(code.into()).or_default() += 1;
        counts.alone += 1;
        return Ok(());
    };
    let expected = Expected::of(&list.memory())?;
    timed(workspace, counts, &problem, list.sorts.len(), &expected).map_err(|message| format!("{message}\n{problem}"))
}

fn timed(
    workspace: &mut Workspace,
    counts: &mut Counts,
    problem: &Problem,
    sorts: usize,
    expected: &Expected,
) -> Result<(), String> {
    let start = Instant::now();
    compare::same(workspace, problem, sorts, expected)?;
    counts.longest = counts.longest.max(start.elapsed());
    *counts.codes.entry(expected.code()).or_default() += 1;
    Ok(())
}

fn class(name: &str) -> Result<Option<Class>, Failure> {
    let found = Class::ALL.iter().find(|(_, other)| *other == name);
    let all = Class::ALL.map(|(_, name)| name).join(", ");
    match found {
        None if name == WILD => Ok(None),
        None => Err(Failure::Option(format!("`{name}` is not one of {WILD}, {all}"))),
        Some((class, _)) => Ok(Some(*class)),
    }
}

fn wrong(name: &str) -> Result<Option<fn(&mut Given)>, Failure> {
    if name == "none" {
        return Ok(None);
    }
    let found = WRONG.iter().find(|(other, _)| *other == name);
    let all = WRONG.map(|(name, _)| name).join(", ");
    let message = || Failure::Option(format!("`{name}` is not one of none, {all}"));
    found.map(|(_, change)| Some(*change)).ok_or_else(message)
}
