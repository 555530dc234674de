//! Prints the lines, or the answers, of the pairs that were written by hand.

use std::io;
use std::io::Write;
use std::process::ExitCode;

use pairs::hand::Pair;
use pairs::hand::by_hand;

fn main() -> ExitCode {
    let arguments: Vec<String> = std::env::args().skip(1).collect();
    let part = match arguments.iter().map(String::as_str).collect::<Vec<_>>()[..] {
        ["lines"] => Pair::input,
        ["answers"] => Pair::output,
        _ => {
            eprintln!("usage: oracle-pairs-hand lines|answers");
            return ExitCode::from(2);
        }
    };
    let bytes: Vec<u8> = by_hand().iter().flat_map(part).collect();
    match io::stdout().write_all(&bytes) {
        Ok(()) => ExitCode::SUCCESS,
        Err(error) => {
            eprintln!("oracle-pairs-hand: {error}");
            ExitCode::from(4)
        }
    }
}
