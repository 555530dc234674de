//! The options that the generator and the soak run share.

use std::process::ExitCode;

use lists::generate::Class;

pub struct Options {
    pub class: Class,
    pub seed: u64,
    pub from: u64,
    pub count: u64,
    pub size: usize,
}

const LARGEST_SIZE: usize = 5;

/// Reads the options of a program and runs it. What goes wrong is said on standard error.
pub fn main(program: &str, run: impl FnOnce(&Options) -> Result<(), String>) -> ExitCode {
    let arguments: Vec<String> = std::env::args().skip(1).collect();
    let (status, message) = match read(&arguments) {
        Err(message) => (2, format!("{message}\nusage: {program} [OPTION VALUE]...\n{}", usage())),
        Ok(options) => match run(&options) {
            Ok(()) => return ExitCode::SUCCESS,
            Err(message) => (3, message),
        },
    };
    eprintln!("{program}: {message}");
    ExitCode::from(status)
}

fn usage() -> String {
    format!(
        "  --class CLASS  one of {} (default solve)
  --seed N       seed of the random numbers (default 1)
  --count N      how many lists (default 10; an enumerated class ends by itself)
  --from N       number of the first list (default 0)
  --size N       1 to {LARGEST_SIZE}: how large a random list may be (default 3)",
        Class::ALL.map(|(_, name)| name).join(", ")
    )
}

fn read(arguments: &[String]) -> Result<Options, String> {
    let mut options = Options { class: Class::Solve, seed: 1, from: 0, count: 10, size: 3 };
    let mut arguments = arguments.iter();
    while let Some(option) = arguments.next() {
        let value = arguments.next().ok_or_else(|| format!("expected a value after `{option}`"))?;
        match option.as_str() {
            "--class" => options.class = class(value)?,
            "--seed" => options.seed = number(option, value)?,
            "--count" => options.count = number(option, value)?,
            "--from" => options.from = number(option, value)?,
            "--size" => options.size = size(value)?,
            _ => return Err(format!("unknown option `{option}`")),
        }
    }
    Ok(options)
}

fn class(value: &str) -> Result<Class, String> {
    let found = Class::ALL.iter().find(|(_, name)| *name == value);
    found.map(|&(class, _)| class).ok_or_else(|| format!("unknown class `{value}`"))
}

fn number(option: &str, value: &str) -> Result<u64, String> {
    value.parse().map_err(|_| format!("expected a number after `{option}`, found `{value}`"))
}

fn size(value: &str) -> Result<usize, String> {
    let size = value.parse().ok().filter(|size| (1..=LARGEST_SIZE).contains(size));
    size.ok_or_else(|| format!("expected 1 to {LARGEST_SIZE} after `--size`, found `{value}`"))
}
