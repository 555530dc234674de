//! Asks both entries of the port's solver and the excerpt of merc about the same lists, and compares answers and memory.
//! Stops at the first difference.

use std::process::ExitCode;
use std::time::Instant;

use common::options;
use common::options::Failure;
use common::options::Options;
use common::watch::Watch;
use solve::cases::Cases;
use solve::cases::Class;
use solve::compare::Desk;
use solve::counts::Counts;
use solve::expected::Outcome;
use solve::port::LIBRARY;
use solve::text::call_text;

const DEFAULTS: [(&str, &str); 4] = [("class", "solve"), ("seed", "1"), ("from", "0"), ("count", "10000")];

fn main() -> ExitCode {
    options::main("oracle-solve-compare", &DEFAULTS, run)
}

/// Lists number `from` on, as many as `count`.
fn run(options: &Options) -> Result<(), Failure> {
    let class = class(options.text("class"))?;
    let (seed, from, count) = (options.number("seed")?, options.number("from")?, options.number("count")?);
    let start = Instant::now();
    let cases = Cases::new(class, seed);
    let (mut desk, mut counts) = (Desk::default(), Counts::default());
    let watch = Watch::start(format!("class {} seed {seed}", class.name()));
    for index in from..from.saturating_add(count) {
        watch.at(index);
        let Some(mut case) = cases.case(index) else { break };
        counts.lists += 1;
        let mut after_15 = false;
        let compared = desk.compare(&mut case, |memory, expected| {
            counts.after_15 += u64::from(after_15);
            after_15 |= expected.outcome == Outcome::NoRoom(15);
            counts.add(memory, expected);
        });
        if let Err(message) = compared {
            let list = cases.case(index).map(|case| call_text(&case.call)).unwrap_or_default();
            let what = format!("class {} seed {seed} number {index}", class.name());
            return Err(Failure::Run(format!("{what}: {message}\n{list}? solve")));
        }
    }
    let seconds = start.elapsed().as_secs_f64();
    println!(
        "class {} seed {seed} from {from}, {LIBRARY}, both entries: {} lists, 0 differences, {seconds:.1} s",
        class.name(),
        counts.lists
    );
    println!("{counts}");
    Ok(())
}

fn class(name: &str) -> Result<Class, Failure> {
    let found = Class::ALL.iter().find(|(_, other)| *other == name);
    let all = Class::ALL.map(|(_, name)| name).join(", ");
    found.map(|&(class, _)| class).ok_or_else(|| Failure::Option(format!("`{name}` is not one of {all}")))
}
