//! Answers the questions of lists on standard input, one line each.

use std::io;
use std::io::BufRead;
use std::io::Write;
use std::process::ExitCode;

use lists::answer::Answer;
use lists::question::Question;
use lists::read::Item;
use lists::read::Reader;
use lists::verdict::Event;
use lists::verdict::Tally;
use lists::write::question_line;
use oracle::ask::ask;

const USAGE: &str = "usage: oracle [--check | --record | --events] < LISTS
  (none)    prints the answer of each question
  --check   compares with the answers recorded in the input, prints those that differ
  --record  prints the input with the answers put in
  --events  prints the answers, each followed by what was made and given back, in time order";

/// What the program does with an answer.
#[derive(Clone, Copy, PartialEq)]
enum Mode {
    Print,
    Check,
    Record,
    Events,
}

/// Ends of the program other than success.
enum Stop {
    /// Recorded answers differ.
    Different,
    /// The input or the call is not as it should be.
    Bad(String),
    /// The Rust gave no answer.
    NoAnswer(String),
    /// Standard input or output failed.
    Io(io::Error),
}

impl From<io::Error> for Stop {
    fn from(error: io::Error) -> Stop {
        Stop::Io(error)
    }
}

fn main() -> ExitCode {
    match mode().and_then(run) {
        Ok(()) => ExitCode::SUCCESS,
        Err(Stop::Different) => ExitCode::from(1),
        Err(Stop::Bad(message)) => fail(2, &message),
        Err(Stop::NoAnswer(message)) => fail(3, &message),
        Err(Stop::Io(error)) => fail(4, &error.to_string()),
    }
}

fn fail(status: u8, message: &str) -> ExitCode {
    eprintln!("oracle: {message}");
    ExitCode::from(status)
}

fn mode() -> Result<Mode, Stop> {
    let arguments: Vec<String> = std::env::args().skip(1).collect();
    match arguments.iter().map(String::as_str).collect::<Vec<_>>()[..] {
        [] => Ok(Mode::Print),
        ["--check"] => Ok(Mode::Check),
        ["--record"] => Ok(Mode::Record),
        ["--events"] => Ok(Mode::Events),
        _ => Err(Stop::Bad(format!("unknown options `{}`\n{USAGE}", arguments.join(" ")))),
    }
}

fn run(mode: Mode) -> Result<(), Stop> {
    let mut run = Run { mode, reader: Reader::new(), open: None, checked: 0, different: 0 };
    let mut input = io::stdin().lock();
    let mut output = io::BufWriter::new(io::stdout().lock());
    let mut line = Vec::new();
    while input.read_until(b'\n', &mut line)? > 0 {
        if line.last() == Some(&b'\n') {
            line.pop();
        }
        let result = run.line(&line, &mut output);
        if result.is_err() {
            output.flush()?;
        }
        result?;
        line.clear();
    }
    run.close(&mut output)?;
    if mode == Mode::Check {
        writeln!(output, "checked {} answers, {} differ", run.checked, run.different)?;
    }
    output.flush()?;
    if run.different > 0 { Err(Stop::Different) } else { Ok(()) }
}

/// A question whose recorded answer has not been read yet.
struct Open {
    line: usize,
    title: String,
    question: Question,
    fresh: Answer,
}

/// One reading of standard input.
struct Run {
    mode: Mode,
    reader: Reader,
    open: Option<Open>,
    checked: usize,
    different: usize,
}

impl Run {
    fn line(&mut self, line: &[u8], output: &mut impl Write) -> Result<(), Stop> {
        let item = self.reader.read(line).map_err(|bad| Stop::Bad(bad.to_string()))?;
        let recorded = matches!(item, Item::Answer(_));
        if self.mode == Mode::Record && !recorded {
            output.write_all(line)?;
            output.write_all(b"\n")?;
        }
        match item {
            Item::Nothing => Ok(()),
            Item::Question(question) => self.answer(question, output),
            Item::Answer(answer) => self.compare(Some(answer), output),
        }
    }

    fn answer(&mut self, question: Question, output: &mut impl Write) -> Result<(), Stop> {
        self.close(output)?;
        let line = self.reader.line_number();
        let list = self.reader.list().expect("a question comes after `list`");
        let memory = list.memory();
        let asked = ask(&memory, question).map_err(|failure| Stop::NoAnswer(format!("line {line}: {failure}")))?;
        if self.mode != Mode::Check {
            writeln!(output, "{}", asked.answer)?;
        }
        if self.mode == Mode::Events {
            write_events(&asked.tally, memory.sort_count, output)?;
        }
        self.open = Some(Open { line, title: list.title.clone(), question, fresh: asked.answer });
        Ok(())
    }

    /// Ends the question before; in a check it is one that has no recorded answer.
    fn close(&mut self, output: &mut impl Write) -> Result<(), Stop> {
        self.compare(None, output)
    }

    fn compare(&mut self, recorded: Option<Answer>, output: &mut impl Write) -> Result<(), Stop> {
        let Some(open) = self.open.take() else { return Ok(()) };
        if self.mode != Mode::Check {
            return Ok(());
        }
        self.checked += 1;
        if recorded.as_ref().is_some_and(|recorded| recorded.agrees_with(&open.fresh)) {
            return Ok(());
        }
        self.different += 1;
        writeln!(output, "line {} ({}): {}", open.line, open.title, question_line(open.question))?;
        match recorded {
            None => writeln!(output, "  recorded: nothing")?,
            Some(recorded) => writeln!(output, "  recorded: {recorded}")?,
        }
        writeln!(output, "  fresh:    {}", open.fresh)?;
        Ok(())
    }
}

fn write_events(tally: &Tally, mut sort: usize, output: &mut impl Write) -> io::Result<()> {
    for event in &tally.events {
        match event {
            Event::Sort { entries } => {
                writeln!(output, "# sort s{sort} made, {entries} entries")?;
                sort += 1;
            }
            Event::Node { entries } => writeln!(output, "# node made, {entries} entries")?,
            Event::GiveBack { nodes } => writeln!(output, "# {nodes} nodes given back")?,
        }
    }
    Ok(())
}
