//! Shows that the comparison can fail: each wrong stand-in must be found by a list of some class.

use std::process::ExitCode;

use common::options;
use common::options::Failure;
use common::options::Options;
use solve::found::Hunt;

fn main() -> ExitCode {
    options::main("oracle-solve-faults", &[("seed", "1"), ("count", "50000")], run)
}

/// Asks the wrong stand-ins about so many lists of each class, each until one shows its fault.
fn run(options: &Options) -> Result<(), Failure> {
    let (seed, count) = (options.number("seed")?, options.number("count")?);
    let mut hunt = Hunt::new();
    hunt.all(seed, count).map_err(Failure::Run)?;
    for line in &hunt.found {
        println!("{line}");
    }
    let missed = hunt.missed();
    if !missed.is_empty() {
        return Err(Failure::Run(format!("not found: {}", missed.join("; "))));
    }
    println!("{} wrong stand-ins, each is found", hunt.found.len());
    Ok(())
}
