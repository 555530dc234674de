//! Prints random pairs of lines for the pair program, and nothing else.

use std::io;
use std::io::Write;
use std::process::ExitCode;

use pairs::generate::pairs;

fn main() -> ExitCode {
    let arguments: Vec<String> = std::env::args().skip(1).collect();
    let numbers: Option<Vec<u64>> = arguments.iter().map(|argument| argument.parse().ok()).collect();
    let Some([seed, count]) = numbers.as_deref() else {
        eprintln!("usage: oracle-pairs-gen SEED COUNT");
        return ExitCode::from(2);
    };
    match print(*seed, *count) {
        Ok(()) => ExitCode::SUCCESS,
        Err(error) => {
            eprintln!("oracle-pairs-gen: {error}");
            ExitCode::from(4)
        }
    }
}

fn print(seed: u64, count: u64) -> io::Result<()> {
    let mut output = io::BufWriter::new(io::stdout().lock());
    for pair in pairs(seed, count) {
        output.write_all(&pair)?;
    }
    output.flush()
}
