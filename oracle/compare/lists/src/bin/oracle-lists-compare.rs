//! Runs a list program and the oracle's on the same inputs and compares what they print. With `--few` without the files
//! and most of the inputs at the edges of the format, and no smallest input is looked for.

use std::collections::BTreeMap;
use std::fs;
use std::io;
use std::process::ExitCode;
use std::time::Duration;
use std::time::Instant;

use list_program::cases;
use list_program::damage;
use list_program::odd;
use pairs::run::Program;
use pairs::run::Ran;
use pairs::shrink::shrink;

const USAGE: &str = "usage: oracle-lists-compare [--few] LISTS SEED PROGRAM [ARGUMENT]...";

/// Texts that one run of the program gets.
const TEXTS_PER_RUN: u64 = 1_000;

/// Damaged texts for each that has a run of its own.
const TEXTS_PER_SINGLE: u64 = 200;

/// Bytes in which an input is handed over; a text with a run of its own comes in each of these in turn.
const PIECES: [usize; 6] = [1, 2, 3, 7, 64, 4_096];
const LARGEST_PIECE: usize = 1 << 16;

/// So many differences of a part are shown, each by the first line that differs.
const SHOWN: u64 = 5;

/// Files with lists, from the folder of the oracle.
const FILES: [&str; 4] =
    ["lists/recorded.txt", "lists/situations.txt", "lists/readings.txt", "../crates/solve_lists/stdin"];
const BAD_LINES: &str = "lists/bad-lines.txt";

fn main() -> ExitCode {
    let mut arguments = std::env::args_os().skip(1).peekable();
    let few = arguments.next_if(|word| word == "--few").is_some();
    let mut number = || arguments.next().and_then(|word| word.to_str()?.parse::<u64>().ok());
    let (Some(lists), Some(seed)) = (number(), number()) else {
        eprintln!("{USAGE}");
        return ExitCode::from(2);
    };
    let Some(program) = Program::new(arguments) else {
        eprintln!("{USAGE}");
        return ExitCode::from(2);
    };
    match compare(&program, lists, seed, few) {
        Ok(0) => ExitCode::SUCCESS,
        Ok(_) => ExitCode::from(1),
        Err(error) => {
            eprintln!("oracle-lists-compare: {error}");
            ExitCode::from(4)
        }
    }
}

/// Compares on all inputs and says how many runs differ.
fn compare(program: &Program, lists: u64, seed: u64, few: bool) -> io::Result<u64> {
    let mut comparison = Comparison { program, differ: 0, smallest: None, part: Part::default() };
    if !few {
        comparison.files()?;
    }
    comparison.bad_lines()?;
    comparison.odd(&if few { odd::few() } else { odd::inputs() })?;
    comparison.texts("lists", lists, |index| cases::text(seed, index).into_bytes())?;
    comparison.texts("damaged texts", lists, |index| damage::text(seed, index))?;
    comparison.singles("damaged texts, a run each", lists, lists / TEXTS_PER_SINGLE, seed)?;
    if !few {
        comparison.print_smallest()?;
    }
    println!("in all {} runs differ", comparison.differ);
    Ok(comparison.differ)
}

/// What was seen in one part of the comparison.
#[derive(Default)]
struct Part {
    runs: u64,
    bytes: usize,
    printed: usize,
    differ: u64,
    /// Lines that were expected, by what they begin with.
    lines: BTreeMap<String, u64>,
    longest: Duration,
    all: Duration,
    oracle: Duration,
}

impl Part {
    fn count(&mut self, expected: &[u8]) {
        for line in expected.split(|&byte| byte == b'\n') {
            let line = String::from_utf8_lossy(line);
            let first = line.trim_start().split(' ').next().unwrap_or_default();
            let label = match first {
                "line" if line.ends_with("? solve: no other question is answered here") => {
                    "other questions".to_string()
                }
                "line" => "bad lines".to_string(),
                "list" => "lists begun".to_string(),
                "nothing" => "without a question".to_string(),
                code if code.parse::<u16>().is_ok() => format!("{code:0>2}"),
                _ => continue,
            };
            *self.lines.entry(label).or_default() += 1;
        }
    }

    fn report(&self, what: &str) {
        println!(
            "{what}, {} runs, {} bytes in, {} bytes out, {} differ; longest run {:.3} s, all {:.1} s, the oracle's {:.1} s",
            self.runs,
            self.bytes,
            self.printed,
            self.differ,
            self.longest.as_secs_f64(),
            self.all.as_secs_f64(),
            self.oracle.as_secs_f64()
        );
        let lines: Vec<String> = self.lines.iter().map(|(label, count)| format!("{label}: {count}")).collect();
        println!("    {}", lines.join(", "));
    }
}

struct Comparison<'a> {
    program: &'a Program,
    differ: u64,
    /// The smallest input known to differ.
    smallest: Option<Vec<u8>>,
    part: Part,
}

impl Comparison<'_> {
    fn end(&mut self, what: &str) {
        self.part.report(what);
        self.part = Part::default();
    }

    fn files(&mut self) -> io::Result<()> {
        for file in FILES {
            self.run(&fs::read(file)?, LARGEST_PIECE)?;
            self.end(file);
        }
        Ok(())
    }

    fn bad_lines(&mut self) -> io::Result<()> {
        let text = fs::read_to_string(BAD_LINES)?;
        let lines = text.lines().filter(|line| !line.starts_with('#'));
        let inputs: Vec<String> = lines
            .filter_map(|line| line.split_once(" => "))
            .map(|(input, _)| input.replace("\\n", "\n").replace("\\t", "\t").replace("\\r", "\r"))
            .collect();
        for input in &inputs {
            self.run(format!("{input}\nlist next\n? solve\n").as_bytes(), LARGEST_PIECE)?;
        }
        self.run(inputs.join("\n").as_bytes(), LARGEST_PIECE)?;
        self.end(BAD_LINES);
        Ok(())
    }

    fn odd(&mut self, inputs: &[Vec<u8>]) -> io::Result<()> {
        for (number, input) in inputs.iter().enumerate() {
            let piece = if input.len() > 5_000 { LARGEST_PIECE } else { PIECES[number % PIECES.len()] };
            self.run(input, piece)?;
        }
        self.end("edges of the format");
        Ok(())
    }

    fn texts(&mut self, what: &str, count: u64, text: impl Fn(u64) -> Vec<u8>) -> io::Result<()> {
        for first in (0..count).step_by(TEXTS_PER_RUN as usize) {
            let input: Vec<Vec<u8>> = (first..count.min(first + TEXTS_PER_RUN)).map(&text).collect();
            self.run(&input.concat(), LARGEST_PIECE)?;
        }
        self.end(&format!("{count} {what}"));
        Ok(())
    }

    fn singles(&mut self, what: &str, from: u64, count: u64, seed: u64) -> io::Result<()> {
        for number in 0..count {
            let input = damage::text(seed, from + number);
            let piece = if input.len() > 5_000 { LARGEST_PIECE } else { PIECES[number as usize % PIECES.len()] };
            self.run(&input, piece)?;
        }
        self.end(&format!("{count} {what}"));
        Ok(())
    }

    /// Runs both on one input.
    fn run(&mut self, input: &[u8], piece: usize) -> io::Result<()> {
        let begun = Instant::now();
        let expected = expected(input);
        let oracle = begun.elapsed();
        let begun = Instant::now();
        let ran = self.program.run(input, piece)?;
        let time = begun.elapsed();
        let part = &mut self.part;
        part.runs += 1;
        part.bytes += input.len();
        part.printed += expected.len();
        part.longest = part.longest.max(time);
        part.all += time;
        part.oracle += oracle;
        part.count(&expected);
        if ran.output == expected && ran.failure.is_none() {
            return Ok(());
        }
        part.differ += 1;
        self.differ += 1;
        if part.differ <= SHOWN {
            print_first(&ran, &expected);
        }
        if self.smallest.as_ref().is_none_or(|other| input.len() < other.len()) {
            self.smallest = Some(input.to_vec());
        }
        Ok(())
    }

    fn print_smallest(&self) -> io::Result<()> {
        let Some(input) = &self.smallest else { return Ok(()) };
        let run = |input: &[u8]| self.program.run(input, LARGEST_PIECE);
        let mut ends = true;
        let smaller = shrink(input.clone(), |input| {
            let ran = if ends { run(input).ok() } else { None };
            ends = ran.is_some();
            ran.is_some_and(|ran| differs(&ran, input))
        });
        let ran = run(&smaller)?;
        println!("the smallest input found that differs, {} bytes, by lines:", smaller.len());
        smaller.split_inclusive(|&byte| byte == b'\n').for_each(|line| println!("    {}", shown(line)));
        println!("expected:\n    {}", shown(&expected(&smaller)));
        println!("printed:\n    {}", shown(&ran.output));
        if let Some(failure) = ran.failure {
            println!("it ended so:\n    {failure}");
        }
        Ok(())
    }
}

/// What the oracle's program prints.
fn expected(input: &[u8]) -> Vec<u8> {
    let mut output = Vec::new();
    list_program::program::run(input, &mut output, None).expect("memory can be read and written");
    output
}

/// The first line that differs, the list that it is about, and how the program ended.
fn print_first(ran: &Ran, expected: &[u8]) {
    let lines = |output: &'_ [u8]| output.split(|&byte| byte == b'\n').map(<[u8]>::to_vec).collect::<Vec<_>>();
    let (printed, expected) = (lines(&ran.output), lines(expected));
    let at = (0..).find(|&at| printed.get(at) != expected.get(at) || at >= printed.len()).expect("one ends");
    let list = expected.iter().take(at).rev().find(|line| line.trim_ascii_start().starts_with(b"list"));
    let line = |lines: &[Vec<u8>]| lines.get(at).map_or("the end".to_string(), |line| shown(line));
    println!(
        "differs after {}: expected {}, printed {}{}",
        list.map_or("no list".to_string(), |list| shown(list)),
        line(&expected),
        line(&printed),
        ran.failure.as_ref().map(|failure| format!(", ended with {failure}")).unwrap_or_default()
    );
}

fn differs(ran: &Ran, input: &[u8]) -> bool {
    ran.failure.is_some() || ran.output != expected(input)
}

fn shown(bytes: &[u8]) -> String {
    format!("\"{}\"", bytes.escape_ascii())
}
