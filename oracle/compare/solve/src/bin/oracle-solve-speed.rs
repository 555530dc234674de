//! Times the port's solver and that of the plain excerpt on the same lists, call by call, in one run.

use std::process::ExitCode;

use common::clock::Clock;
use common::clock::median;
use common::junk::Junk;
use common::options;
use common::options::Failure;
use common::options::Options;
use common::times::Times;
use common::times::head;
use common::times::row;
use lists::memory::Memory;
use solve::call::Call;
use solve::cases::Timed;
use solve::port::LIBRARY;
use solve::speed::ends;
use solve::speed::times;

fn main() -> ExitCode {
    options::main("oracle-solve-speed", &[("seed", "1"), ("lists", "40"), ("repeats", "20")], run)
}

fn run(options: &Options) -> Result<(), Failure> {
    if cfg!(debug_assertions) {
        return Err(Failure::Run("build it with `cargo build --profile timing`".to_string()));
    }
    let (seed, lists) = (options.number("seed")?, options.number("lists")? as usize);
    let repeats = options.number("repeats")? as usize;
    let (clock, junk) = (Clock::calibrated(), Junk::new(seed));
    println!("{LIBRARY} and the excerpt, {lists} lists of each kind, {repeats} calls of each list, seed {seed}.");
    println!("Buffers are filled, and for merc lists are put in, outside the time.");
    println!(
        "\"Its checks\" is the same call with a scratch one word short, which is refused with 14 after all other checks.\n"
    );
    println!("{}", head("lists | sorts | constraints | variables"));
    for (timed, name) in Timed::ALL {
        let calls: Vec<Call> = (0..).map(|index| timed.call(&junk, seed, index)).filter(ends).take(lists).collect();
        let times: Vec<Times> = calls.iter().map(|call| times(&clock, call, repeats)).collect();
        let counts = [
            |memory: &Memory| memory.sort_count,
            |memory: &Memory| memory.constraint_count,
            |memory: &Memory| memory.variable_count,
        ];
        let counts = counts.map(|count| {
            let median = median(calls.iter().map(|call| count(&call.memory) as f64).collect());
            median.to_string()
        });
        println!("{}", row(&format!("{name} | {}", counts.join(" | ")), &times));
    }
    Ok(())
}
