//! Runs a pair program and the oracle's on the same inputs and compares what they print. With
//! `--random` on the random inputs only.

use std::collections::BTreeMap;
use std::io;
use std::process::ExitCode;

use pairs::generate;
use pairs::generate::enumerate;
use pairs::hand;
use pairs::program::BadLine;
use pairs::program::Outcome;
use pairs::program::Pairs;
use pairs::run::Program;
use pairs::run::Ran;
use pairs::shrink::shrink;

const SEEDS: [u64; 5] = [1, 2, 3, 4, 5];

/// Pairs for each whole input with an odd end.
const PAIRS_PER_WHOLE: u64 = 50;

/// Bytes in which an input is handed over; a whole input comes in each of these in turn.
const PIECES: [usize; 6] = [1, 2, 3, 7, 64, 4_096];
const LARGEST_PIECE: usize = 1 << 16;

/// Single pairs that are tried alone before the whole input is made smaller.
const ALONE: usize = 50;

fn main() -> ExitCode {
    let mut arguments = std::env::args_os().skip(1).peekable();
    let random_only = arguments.next_if(|word| word == "--random").is_some();
    let pairs = arguments.next().and_then(|word| word.to_str()?.parse().ok());
    let (Some(pairs), Some(program)) = (pairs, Program::new(arguments)) else {
        eprintln!("usage: oracle-pairs-compare [--random] PAIRS PROGRAM [ARGUMENT]...");
        return ExitCode::from(2);
    };
    match compare(&program, pairs, random_only) {
        Ok(0) => ExitCode::SUCCESS,
        Ok(_) => ExitCode::from(1),
        Err(error) => {
            eprintln!("oracle-pairs-compare: {error}");
            ExitCode::from(4)
        }
    }
}

/// Compares on all inputs and says how many pairs differ.
fn compare(program: &Program, pairs: u64, random_only: bool) -> io::Result<u64> {
    let mut comparison = Comparison { program, differ: 0, smallest: None, labels: BTreeMap::new(), interior: 0 };
    if !random_only {
        comparison.by_hand()?;
        comparison.ends()?;
        comparison.enumerated("every two small sorts", &enumerate::small_pairs())?;
        comparison.enumerated("every row of up to five tokens", &enumerate::token_rows())?;
    }
    comparison.random(pairs)?;
    comparison.whole(pairs / PAIRS_PER_WHOLE)?;
    comparison.print_labels();
    comparison.print_smallest()?;
    println!("in all {} pairs differ", comparison.differ);
    Ok(comparison.differ)
}

struct Comparison<'a> {
    program: &'a Program,
    differ: u64,
    /// The smallest input known to differ.
    smallest: Option<Vec<u8>>,
    /// How many random pairs have which answer.
    labels: BTreeMap<&'static str, u64>,
    /// The greatest interior of a distance.
    interior: u8,
}

impl Comparison<'_> {
    fn by_hand(&mut self) -> io::Result<()> {
        let pairs = hand::by_hand();
        let inputs: Vec<Vec<u8>> = pairs.iter().map(hand::Pair::input).collect();
        let answers: Vec<u8> = pairs.iter().flat_map(hand::Pair::output).collect();
        assert_eq!(shown(&expected(&inputs.concat())), shown(&answers), "the oracle and by-hand.txt differ");
        let differ = self.run(&inputs, LARGEST_PIECE)?;
        println!("written by hand: {} pairs, {differ} differ", pairs.len());
        Ok(())
    }

    fn ends(&mut self) -> io::Result<()> {
        let ends = hand::ends();
        let mut differ = 0;
        for (number, (input, output)) in ends.iter().enumerate() {
            assert_eq!(shown(&expected(input)), shown(output), "the oracle and ends.txt differ on {}", shown(input));
            differ += self.differs_on(input, number)?;
        }
        println!("ends written by hand: {} inputs, {differ} differ", ends.len());
        Ok(())
    }

    fn enumerated(&mut self, what: &str, inputs: &[Vec<u8>]) -> io::Result<()> {
        let differ = self.run(inputs, LARGEST_PIECE)?;
        println!("{what}: {} pairs, {differ} differ", inputs.len());
        Ok(())
    }

    fn random(&mut self, pairs: u64) -> io::Result<()> {
        let mut differ = 0;
        let mut bytes = 0;
        for (number, seed) in (0..).zip(SEEDS) {
            let share = pairs * (number + 1) / SEEDS.len() as u64 - pairs * number / SEEDS.len() as u64;
            let inputs: Vec<Vec<u8>> = generate::pairs(seed, share).collect();
            bytes += inputs.iter().map(Vec::len).sum::<usize>();
            inputs.iter().for_each(|input| self.count(input));
            differ += self.run(&inputs, LARGEST_PIECE)?;
        }
        println!("random pairs: {pairs} pairs of {} seeds, {bytes} bytes, {differ} differ", SEEDS.len());
        Ok(())
    }

    fn whole(&mut self, count: u64) -> io::Result<()> {
        let (mut differ, mut pairs) = (0, 0);
        for index in 0..count {
            let input = generate::whole(SEEDS[0], index);
            pairs += lines(&expected(&input)).count();
            self.count(&input);
            differ += self.differs_on(&input, index as usize)?;
        }
        println!("random whole inputs: {count} inputs with {pairs} pairs, {differ} differ");
        Ok(())
    }

    /// Runs both on a whole input, in pieces by its number. Says 1 if it differs and 0 if not.
    fn differs_on(&mut self, input: &Vec<u8>, number: usize) -> io::Result<u64> {
        self.run(std::slice::from_ref(input), PIECES[number % PIECES.len()]).map(|differ| differ.min(1))
    }

    /// Runs both on one input, given as its pairs. Says how many pairs differ.
    fn run(&mut self, inputs: &[Vec<u8>], piece: usize) -> io::Result<u64> {
        let input = inputs.concat();
        let expected = expected(&input);
        let ran = self.program.run(&input, piece)?;
        if ran.output == expected && ran.failure.is_none() {
            return Ok(0);
        }
        let (mut found, mut wanted) = (lines(&ran.output), lines(&expected));
        let mut differing = Vec::new();
        for index in 0.. {
            match (found.next(), wanted.next()) {
                (None, None) => break,
                (found, wanted) if found != wanted => differing.push(index),
                _ => {}
            }
        }
        let differ = differing.len().max(1) as u64;
        self.differ += differ;
        let smallest = self.smallest_alone(inputs, &differing)?.unwrap_or(input);
        if self.smallest.as_ref().is_none_or(|other| smallest.len() < other.len()) {
            self.smallest = Some(smallest);
        }
        Ok(differ)
    }

    /// The smallest pair that differs also where it is the only one.
    fn smallest_alone(&self, inputs: &[Vec<u8>], differing: &[usize]) -> io::Result<Option<Vec<u8>>> {
        let mut candidates: Vec<&Vec<u8>> = differing.iter().filter_map(|&index| inputs.get(index)).collect();
        candidates.sort_by_key(|input| input.len());
        for input in candidates.into_iter().take(ALONE) {
            if differs(&self.program.run(input, LARGEST_PIECE)?, input) {
                return Ok(Some(input.clone()));
            }
        }
        Ok(None)
    }

    fn print_smallest(&self) -> io::Result<()> {
        let Some(input) = &self.smallest else { return Ok(()) };
        let run = |input: &[u8]| self.program.run(input, LARGEST_PIECE);
        let mut ends = true;
        let smaller = shrink(input.clone(), |input| {
            let ran = if ends { run(input).ok() } else { None };
            ends = ran.is_some();
            ran.is_some_and(|ran| differs(&ran, input))
        });
        let ran = run(&smaller)?;
        println!("the smallest input found that differs, {} bytes, by lines:", smaller.len());
        smaller.split_inclusive(|&byte| byte == b'\n').for_each(|line| println!("    {}", shown(line)));
        println!("expected:\n    {}", shown(&expected(&smaller)));
        println!("printed:\n    {}", shown(&ran.output));
        if let Some(failure) = ran.failure {
            println!("it ended so:\n    {failure}");
        }
        Ok(())
    }

    fn count(&mut self, input: &[u8]) {
        let mut pairs = Pairs::new(input, None);
        while let Some(outcome) = pairs.next_pair().expect("memory can be read") {
            for label in labels(&outcome) {
                *self.labels.entry(label).or_default() += 1;
            }
            if let Outcome::Answer(answer) = outcome {
                self.interior = self.interior.max(answer.distance.map_or(0, |(_, interior)| interior));
            }
        }
    }

    fn print_labels(&self) {
        println!("the random pairs and inputs by what is expected:");
        self.labels.iter().for_each(|(label, count)| println!("    {label}: {count}"));
        println!("    greatest interior: {}", self.interior);
    }
}

/// The classes of a pair, in words that sort well.
fn labels(outcome: &Outcome) -> Vec<&'static str> {
    let answer = match outcome {
        Outcome::Bad(BadLine::TooLong, false) => return vec!["19 first line"],
        Outcome::Bad(BadLine::TooLong, true) => return vec!["19 second line"],
        Outcome::Bad(BadLine::NotASort(end), false) if end.is_empty() => {
            return vec!["20 first line, stopped too early"];
        }
        Outcome::Bad(BadLine::NotASort(end), true) if end.is_empty() => {
            return vec!["20 second line, stopped too early"];
        }
        Outcome::Bad(BadLine::NotASort(_), false) => return vec!["20 first line, unread end"],
        Outcome::Bad(BadLine::NotASort(_), true) => return vec!["20 second line, unread end"],
        Outcome::Single => return vec!["21"],
        Outcome::Answer(answer) => answer,
    };
    let order = match answer.order {
        Some(std::cmp::Ordering::Equal) => "answered: =",
        Some(std::cmp::Ordering::Less) => "answered: <",
        Some(std::cmp::Ordering::Greater) => "answered: >",
        None => "answered: |",
    };
    let bounds = match (&answer.join, &answer.meet) {
        (Some(_), Some(_)) => "answered: join and meet",
        (Some(_), None) => "answered: join without meet",
        (None, Some(_)) => "answered: meet without join",
        (None, None) => "answered: neither join nor meet",
    };
    let distance = match answer.distance {
        None => "answered: distance none",
        Some((0, 0)) => "answered: distance 0 0",
        Some((0, _)) => "answered: distance 0 and interior",
        Some((_, 0)) => "answered: distance head and 0",
        Some(_) => "answered: distance head and interior",
    };
    let materializable = if answer.materializable { "answered: yes" } else { "answered: no" };
    vec!["answered", order, bounds, distance, materializable]
}

/// What the oracle's program prints.
fn expected(input: &[u8]) -> Vec<u8> {
    let mut output = Vec::new();
    pairs::program::run(input, &mut output, None).expect("memory can be read and written");
    output
}

fn differs(ran: &Ran, input: &[u8]) -> bool {
    ran.failure.is_some() || ran.output != expected(input)
}

fn lines(output: &[u8]) -> impl Iterator<Item = &[u8]> {
    output.split_inclusive(|&byte| byte == b'\n')
}

fn shown(bytes: &[u8]) -> String {
    format!("\"{}\"", bytes.escape_ascii())
}
