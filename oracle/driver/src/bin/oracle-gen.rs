//! Prints lists with questions, in the text format.

use std::io;
use std::io::Write;
use std::process::ExitCode;

use lists::generate::Case;
use lists::generate::case;
use lists::write::list_text;
use lists::write::question_line;
use oracle::options;
use oracle::options::Options;

fn main() -> ExitCode {
    options::main("oracle-gen", |options| print(options).map_err(|error| error.to_string()))
}

fn print(options: &Options) -> io::Result<()> {
    let mut output = io::BufWriter::new(io::stdout().lock());
    for index in options.from..options.from.saturating_add(options.count) {
        match case(options.class, options.seed, options.size, index) {
            Some(case) => write_case(&case, &mut output)?,
            None => break,
        }
    }
    output.flush()
}

fn write_case(case: &Case, output: &mut impl Write) -> io::Result<()> {
    output.write_all(list_text(&case.list).as_bytes())?;
    for &question in &case.questions {
        writeln!(output, "{}", question_line(question))?;
    }
    writeln!(output)
}
