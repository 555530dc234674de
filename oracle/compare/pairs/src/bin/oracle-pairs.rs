//! The pair program: standard input to standard output. With `--wrong FAULT` a wrong one, which
//! the comparison must find; `--faults` lists these.

use std::io;
use std::process::ExitCode;

use pairs::fault::Fault;
use pairs::program::run;

const BUFFER: usize = 1 << 16;

fn main() -> ExitCode {
    let arguments: Vec<String> = std::env::args().skip(1).collect();
    let words: Vec<&str> = arguments.iter().map(String::as_str).collect();
    let fault = match words[..] {
        [] => None,
        ["--faults"] => {
            for (_, name, what) in Fault::ALL {
                println!("{name}\t{what}");
            }
            return ExitCode::SUCCESS;
        }
        ["--wrong", name] if Fault::named(name).is_some() => Fault::named(name),
        _ => {
            eprintln!("usage: oracle-pairs [--wrong FAULT | --faults]");
            return ExitCode::from(2);
        }
    };
    let input = io::BufReader::with_capacity(BUFFER, io::stdin().lock());
    let mut output = io::BufWriter::with_capacity(BUFFER, io::stdout().lock());
    match run(input, &mut output, fault) {
        Ok(()) => ExitCode::SUCCESS,
        Err(error) => {
            eprintln!("oracle-pairs: {error}");
            ExitCode::from(4)
        }
    }
}
