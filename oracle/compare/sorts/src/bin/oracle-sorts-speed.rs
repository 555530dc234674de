//! Times the proved library and the plain excerpt on the same questions, call by call, in one run.

use std::process::ExitCode;

use common::clock::Clock;
use common::options;
use common::options::Failure;
use common::options::Options;
use common::times::head;
use common::times::row;
use sorts::speed::KINDS;
use sorts::speed::SIZES;
use sorts::speed::times;

fn main() -> ExitCode {
    options::main("oracle-sorts-speed", &[("seed", "1"), ("questions", "200")], run)
}

fn run(options: &Options) -> Result<(), Failure> {
    if cfg!(debug_assertions) {
        return Err(Failure::Run("build it with `cargo build --profile timing`".to_string()));
    }
    let (seed, questions) = (options.number("seed")?, options.number("questions")? as usize);
    let clock = Clock::calibrated();
    println!("{}", head("sorts | question | questions"));
    for (sorts, repeats) in SIZES {
        for kind in KINDS {
            let times = times(&clock, seed, sorts, questions, repeats, kind);
            println!("{}", row(&format!("{sorts} | {} | {}", kind.name, times.len()), &times));
        }
    }
    Ok(())
}
