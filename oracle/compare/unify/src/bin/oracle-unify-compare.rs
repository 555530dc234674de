//! Asks the port's unify and the excerpt of merc the same questions, and compares answers, bindings
//! and memory. Stops at the first difference.

use std::process::ExitCode;
use std::time::Instant;

use common::options;
use common::options::Failure;
use common::options::Options;
use common::watch::Watch;
use unify::cases::Cases;
use unify::cases::Class;
use unify::counts::Counts;
use unify::port::LIBRARY;
use unify::port::Port;

const DEFAULTS: [(&str, &str); 5] =
    [("class", "mixed"), ("seed", "1"), ("from", "0"), ("count", "1000000000"), ("questions", "10000")];

fn main() -> ExitCode {
    options::main("oracle-unify-compare", &DEFAULTS, run)
}

/// Lists number `from` on, as many as `count`, until `questions` are asked.
fn run(options: &Options) -> Result<(), Failure> {
    let class = class(options.text("class"))?;
    let (seed, from, count) = (options.number("seed")?, options.number("from")?, options.number("count")?);
    let questions = options.number("questions")?;
    let start = Instant::now();
    let cases = Cases::new(class, seed);
    let mut counts = Counts::default();
    let watch = Watch::start(format!("class {} seed {seed}", class.name()));
    for index in from..from.saturating_add(count) {
        let Some(case) = cases.case(index).filter(|_| counts.questions < questions) else { break };
        watch.at(index);
        case.compare(Port::Library, &mut counts)
            .map_err(|message| Failure::Run(format!("class {} seed {seed} number {index}: {message}", class.name())))?;
    }
    let seconds = start.elapsed().as_secs_f64();
    println!(
        "class {} seed {seed} from {from}, {LIBRARY}: {} lists, {} questions, 0 differences, {seconds:.1} s",
        class.name(),
        counts.lists,
        counts.questions
    );
    println!("{counts}");
    Ok(())
}

fn class(name: &str) -> Result<Class, Failure> {
    let found = Class::ALL.iter().find(|(_, other)| *other == name);
    let all = Class::ALL.map(|(_, name)| name).join(", ");
    found.map(|&(class, _)| class).ok_or_else(|| Failure::Option(format!("`{name}` is not one of {all}")))
}
