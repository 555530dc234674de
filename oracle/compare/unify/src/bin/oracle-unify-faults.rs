//! Shows that the comparison can fail: each wrong stand-in must be found by a random class.

use std::process::ExitCode;

use common::options;
use common::options::Failure;
use common::options::Options;
use unify::cases::Cases;
use unify::cases::Class;
use unify::counts::Counts;
use unify::fault::Fault;
use unify::port::Port;

fn main() -> ExitCode {
    options::main("oracle-unify-faults", &[("seed", "1"), ("questions", "3000")], run)
}

/// Asks each wrong stand-in so many questions of each class, until one shows the fault.
fn run(options: &Options) -> Result<(), Failure> {
    let (seed, questions) = (options.number("seed")?, options.number("questions")?);
    let mut missed = Vec::new();
    for (fault, what) in Fault::ALL {
        match Class::ALL.into_iter().find_map(|(class, _)| found(fault, class, seed, questions)) {
            Some(where_found) => println!("{what}: {where_found}"),
            None => missed.push(what),
        }
    }
    match missed.is_empty() {
        true => Ok(()),
        false => Err(Failure::Run(format!("not found: {}", missed.join("; ")))),
    }
}

/// Where a class shows a fault, and how.
fn found(fault: Fault, class: Class, seed: u64, questions: u64) -> Option<String> {
    let cases = Cases::new(class, seed);
    let mut counts = Counts::default();
    for index in 0.. {
        let case = cases.case(index).filter(|_| counts.questions < questions)?;
        if let Err(message) = case.compare(Port::Wrong(fault), &mut counts) {
            let message = message.lines().next().unwrap_or_default();
            return Some(format!("found, {} number {index}, {message}", class.name()));
        }
    }
    None
}
