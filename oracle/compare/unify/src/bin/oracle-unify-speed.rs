//! Times the port's unify and that of the plain excerpt on the same questions, call by call, in one run.

use std::process::ExitCode;

use common::clock::Clock;
use common::clock::median;
use common::options;
use common::options::Failure;
use common::options::Options;
use common::times::Times;
use common::times::head;
use common::times::row;
use lists::memory::Memory;
use unify::cases::Timed;
use unify::port::LIBRARY;
use unify::speed::times;

fn main() -> ExitCode {
    options::main("oracle-unify-speed", &[("seed", "1"), ("questions", "50"), ("repeats", "50")], run)
}

fn run(options: &Options) -> Result<(), Failure> {
    if cfg!(debug_assertions) {
        return Err(Failure::Run("build it with `cargo build --profile timing`".to_string()));
    }
    let (seed, questions) = (options.number("seed")?, options.number("questions")?);
    let repeats = options.number("repeats")? as usize;
    let clock = Clock::calibrated();
    println!("{LIBRARY} and the excerpt:\n\n{}", head("places | nodes | variables"));
    for timed in Timed::ALL {
        let cases: Vec<(Memory, (u16, u16))> = (0..questions).map(|index| timed.case(seed, index)).collect();
        let times: Vec<Times> = cases.iter().map(|(memory, pair)| times(&clock, memory, *pair, repeats)).collect();
        let nodes = median(cases.iter().map(|(memory, _)| memory.node_count as f64).collect());
        let variables = median(cases.iter().map(|(memory, _)| memory.variable_count as f64).collect());
        println!("{}", row(&format!("{} | {nodes} | {variables}", timed.name()), &times));
    }
    Ok(())
}
