//! The options of the programs: `--name value`, in any order.

use std::process::ExitCode;

/// Options by name, each with the value that holds if it is not given.
pub struct Options {
    values: Vec<(&'static str, String)>,
}

/// Reads the options of a program and runs it. What goes wrong is said on standard error; the
/// status is 2 if an option is wrong and 1 if the run fails.
pub fn main(
    program: &str,
    defaults: &[(&'static str, &str)],
    run: impl FnOnce(&Options) -> Result<(), Failure>,
) -> ExitCode {
    let read = Options::read(defaults, std::env::args().skip(1));
    let Err(failure) = read.and_then(|options| run(&options)) else { return ExitCode::SUCCESS };
    let (status, message) = match failure {
        Failure::Option(message) => (2, format!("{message}\n{}", usage(program, defaults))),
        Failure::Run(message) => (1, message),
    };
    eprintln!("{program}: {message}");
    ExitCode::from(status)
}

pub enum Failure {
    Option(String),
    Run(String),
}

fn usage(program: &str, defaults: &[(&'static str, &str)]) -> String {
    let options = defaults.iter().map(|(name, value)| format!("  --{name} VALUE (default {value})"));
    format!("usage: {program} [OPTION]...\n{}", options.collect::<Vec<_>>().join("\n"))
}

impl Options {
    fn read(defaults: &[(&'static str, &str)], mut words: impl Iterator<Item = String>) -> Result<Options, Failure> {
        let mut values: Vec<(&str, String)> = defaults.iter().map(|&(name, value)| (name, value.to_string())).collect();
        while let Some(word) = words.next() {
            let option = values.iter_mut().find(|(name, _)| word == format!("--{name}"));
            let (_, value) = option.ok_or_else(|| Failure::Option(format!("unknown option `{word}`")))?;
            *value = words.next().ok_or_else(|| Failure::Option(format!("expected a value after `{word}`")))?;
        }
        Ok(Options { values })
    }

    pub fn text(&self, name: &str) -> &str {
        let found = self.values.iter().find(|(other, _)| *other == name);
        found.map(|(_, value)| value.as_str()).expect("the program has this option")
    }

    pub fn number(&self, name: &str) -> Result<u64, Failure> {
        let value = self.text(name);
        value.parse().map_err(|_| Failure::Option(format!("expected a number after `--{name}`, found `{value}`")))
    }
}
