//! The pair program: two lines to a pair, one line for each pair.

use std::io;
use std::io::BufRead;
use std::io::Write;

use crate::answer::Answer;
use crate::fault::Fault;
use crate::lines::Lines;
use crate::read::read;
use crate::sort::Sort;

/// A line has at most so many bytes, its LF not counted.
const LONGEST_LINE: usize = 200;

#[derive(Debug)]
pub enum Outcome {
    Answer(Answer),
    /// The first bad line's fault, and whether it is the second line.
    Bad(BadLine, bool),
    /// 21: the input ends after a good first line.
    Single,
}

#[derive(Debug)]
pub enum BadLine {
    /// 19.
    TooLong,
    /// 20, with the unread end.
    NotASort(Vec<u8>),
}

/// The pairs of an input.
pub struct Pairs<R> {
    lines: Lines<R>,
    fault: Option<Fault>,
    /// The second line of a bad pair, for a wrong program that reads it again.
    kept: Option<Vec<u8>>,
}

impl<R: BufRead> Pairs<R> {
    pub fn new(input: R, fault: Option<Fault>) -> Pairs<R> {
        Pairs { lines: Lines::new(input, fault), fault, kept: None }
    }

    /// The outcome of the next pair. Both its lines are read, whatever the first one is.
    pub fn next_pair(&mut self) -> io::Result<Option<Outcome>> {
        let first = match self.kept.take() {
            Some(line) => line,
            None => match self.lines.next_line()? {
                Some(line) => line,
                None => return Ok(None),
            },
        };
        let second = self.lines.next_line()?;
        let outcome = self.outcome(&first, second.as_deref());
        if self.fault == Some(Fault::SecondLineKept) && matches!(outcome, Outcome::Bad(_, false)) {
            self.kept = second;
        }
        Ok(Some(outcome))
    }

    fn outcome(&self, first: &[u8], second: Option<&[u8]>) -> Outcome {
        if let (Some(Fault::SecondCodeFirst), Some(Err(bad))) = (self.fault, second.map(|line| self.sort(line))) {
            return Outcome::Bad(bad, true);
        }
        let lhs = match self.sort(first) {
            Err(_) if second.is_none() && self.fault == Some(Fault::BadSingle21) => return Outcome::Single,
            Err(bad) => return Outcome::Bad(bad, false),
            Ok(sort) => sort,
        };
        match second.map(|line| self.sort(line)) {
            None => Outcome::Single,
            Some(Err(bad)) => Outcome::Bad(bad, true),
            Some(Ok(rhs)) => Outcome::Answer(Answer::about(&lhs, &rhs, self.fault)),
        }
    }

    fn sort(&self, line: &[u8]) -> Result<Sort, BadLine> {
        let longest = LONGEST_LINE + usize::from(self.fault == Some(Fault::BytesAccepted201));
        if line.len() > longest {
            return Err(BadLine::TooLong);
        }
        read(line, self.fault).map_err(|at| BadLine::NotASort(self.unread_end(line, at).to_vec()))
    }

    fn unread_end<'a>(&self, line: &'a [u8], at: usize) -> &'a [u8] {
        let end = &line[at..];
        match self.fault {
            Some(Fault::EndOneLate) => end.get(1..).unwrap_or_default(),
            Some(Fault::EndWithSpaces) => &line[line[..at].trim_ascii_end().len()..],
            Some(Fault::EndTrimmed) => end.trim_ascii_end(),
            _ => end,
        }
    }
}

impl Outcome {
    /// Writes the pair's line.
    pub fn write(&self, output: &mut impl Write) -> io::Result<()> {
        match self {
            Outcome::Answer(answer) => answer.write(output)?,
            Outcome::Bad(BadLine::TooLong, _) => output.write_all(b"19")?,
            Outcome::Bad(BadLine::NotASort(unread), _) => {
                output.write_all(b"20:")?;
                output.write_all(unread)?;
            }
            Outcome::Single => output.write_all(b"21")?,
        }
        output.write_all(b"\n")
    }
}

/// Answers all pairs of an input.
pub fn run(input: impl BufRead, output: &mut impl Write, fault: Option<Fault>) -> io::Result<()> {
    let mut pairs = Pairs::new(input, fault);
    while let Some(outcome) = pairs.next_pair()? {
        outcome.write(output)?;
    }
    output.flush()
}
