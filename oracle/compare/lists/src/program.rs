//! The list program: lists with questions in, verdicts in words out.

use std::io;
use std::io::BufRead;
use std::io::Write;

use lists::memory::Ceilings;
use lists::memory::MAX_VARIABLES;
use lists::memory::NAME;
use lists::question::Question;
use lists::read::Item;
use lists::read::Reader;
use lists::read::parse_named;
use lists::read::parse_place;
use lists::verdict::Reply;
use oracle::ask::ask;

use crate::fault::Fault;
use crate::lines::Lines;
use crate::messages;
use crate::verdict;

/// The longest line that is no answer.
const LONGEST_LINE: usize = 200;

/// Base names that the program holds.
const MOST_NAMES: usize = 512;

/// The verdict that a program wrong on one list has wrong.
const WRONG_ONCE: u64 = 777;

/// Where in its input the program stands.
#[derive(Clone, Copy, PartialEq)]
enum Stage {
    /// Before the first list.
    Before,
    /// In a list about which nothing was asked so far.
    Giving,
    /// After a question.
    Asked,
    /// After a bad line, up to the next list.
    Passing,
}

struct Program {
    reader: Reader,
    stage: Stage,
    number: u64,
    verdicts: u64,
    fault: Option<Fault>,
    said: Vec<u8>,
}

/// Answers all lists of an input.
pub fn run(input: impl BufRead, output: &mut impl Write, fault: Option<Fault>) -> io::Result<()> {
    let mut program = Program {
        reader: Reader::with_counts_that_stop(),
        stage: Stage::Before,
        number: 0,
        verdicts: 0,
        fault,
        said: Vec::new(),
    };
    let mut lines = Lines::new(input, fault);
    while let Some(line) = lines.next_line()? {
        program.number += 1;
        if let Err(expected) = program.line(&line) {
            program.bad(expected);
        }
        output.write_all(&program.said)?;
        program.said.clear();
    }
    program.end_list();
    output.write_all(&program.said)?;
    output.flush()
}

impl Program {
    /// Takes a line, or says what was expected in its place.
    fn line(&mut self, line: &[u8]) -> Result<(), &'static str> {
        let Some(first) = line.iter().position(|&byte| byte != b' ') else { return Ok(()) };
        if line[first] == b'#' {
            return Ok(());
        }
        let word = line[first..].split(|&byte| byte == b' ').next().expect("there is a first word");
        match word {
            b"list" => self.begin(line),
            _ if self.stage == Stage::Passing && self.fault != Some(Fault::NotPassedOver) => Ok(()),
            b"=" => self.answer(line),
            _ => self.other(line),
        }
    }

    fn begin(&mut self, line: &[u8]) -> Result<(), &'static str> {
        self.has_bytes_of_a_line(line)?;
        self.end_list();
        match self.fault {
            Some(Fault::TitleTrimmed) => self.say(line.trim_ascii()),
            _ => self.say(line),
        }
        self.reader.read(line).expect("any text may follow the word");
        self.stage = Stage::Giving;
        Ok(())
    }

    /// A recorded answer is passed over, whatever it says.
    fn answer(&mut self, line: &[u8]) -> Result<(), &'static str> {
        printable(line)?;
        match self.stage {
            Stage::Asked => Ok(()),
            _ if self.fault == Some(Fault::AnswerAnywhere) => Ok(()),
            _ => Err(messages::NO_QUESTION),
        }
    }

    fn other(&mut self, line: &[u8]) -> Result<(), &'static str> {
        let tabs_replaced: Vec<u8>;
        let line = match self.fault {
            Some(Fault::TabIsSpace) => {
                tabs_replaced = line.iter().map(|&byte| if byte == b'\t' { b' ' } else { byte }).collect();
                &tabs_replaced
            }
            _ => line,
        };
        self.has_bytes_of_a_line(line)?;
        let words: Vec<&str> = text(line).split(' ').filter(|word| !word.is_empty()).collect();
        match (self.stage, words[0]) {
            (Stage::Before, _) => Err(messages::NO_LIST),
            (_, "?") => self.question(line),
            (Stage::Asked, _) if self.fault != Some(Fault::GivenAfterQuestion) => Err(messages::AFTER_QUESTION),
            _ => self.give(&words, line),
        }
    }

    fn question(&mut self, line: &[u8]) -> Result<(), &'static str> {
        let item = self.reader.read(line).map_err(|_| messages::form("?"))?;
        self.stage = Stage::Asked;
        match item {
            Item::Question(Question::Solve) => self.solve(),
            _ if self.fault == Some(Fault::OtherQuestionsUnsaid) => {}
            _ => self.expected(messages::OTHER_QUESTION),
        }
        Ok(())
    }

    fn give(&mut self, words: &[&str], line: &[u8]) -> Result<(), &'static str> {
        let names = self.reader.list().expect("a list has begun").names.len();
        if words[0] == "name" && names == MOST_NAMES && self.fault != Some(Fault::MoreNames) {
            return Err(messages::NAMES);
        }
        if words[0] == "ceilings" && self.fault != Some(Fault::CeilingsObeyed) {
            return Err(messages::form("ceilings"));
        }
        if is_binding_past_the_ceiling(words, self.reader.list().expect("a list has begun").bindings.len()) {
            return Ok(());
        }
        self.reader.read(line).map(drop).map_err(|bad| match words[0] {
            "var" if !is_variable(words) => messages::form("var"),
            "sort" | "node" | "expr" | "var" if bad.message.contains("the next of its list") => messages::NEXT,
            "bind" if is_binding(words) => messages::UNBOUND,
            keyword => messages::form(keyword),
        })
    }

    fn solve(&mut self) {
        let mut memory = self.reader.list().expect("a question comes after a list").memory();
        if self.fault != Some(Fault::MoreNames) {
            memory.names.truncate(MOST_NAMES * NAME); // Whatever a line `lend names` says.
        }
        if self.fault != Some(Fault::CeilingsObeyed) {
            memory.ceilings = Ceilings::default();
        }
        let asked = ask(&memory, Question::Solve).unwrap_or_else(|failure| panic!("line {}: {failure}", self.number));
        let (verdict, new) = match &asked.heard {
            None => (None, &[][..]),
            Some(heard) => match &heard.reply {
                Reply::Solve(verdict) => (Some(verdict), &heard.new[..]),
                reply => panic!("{reply:?} is no verdict"),
            },
        };
        let mut text = verdict::text(&memory, &asked, verdict, new, self.fault);
        self.verdicts += 1;
        if self.fault == Some(Fault::WrongOnce) && self.verdicts == WRONG_ONCE {
            text = format!("17 {}\nnew s6 Set Pos\n", messages::of_code(17));
        }
        self.said.extend_from_slice(text.as_bytes());
    }

    /// Says it of a list about which nothing was asked.
    fn end_list(&mut self) {
        if self.stage == Stage::Giving && self.fault != Some(Fault::UnaskedUnsaid) {
            self.say(messages::UNASKED.as_bytes());
        }
    }

    fn bad(&mut self, expected: &'static str) {
        self.stage = Stage::Passing;
        self.expected(expected);
    }

    fn expected(&mut self, expected: &str) {
        let number = if self.fault == Some(Fault::LinesFromZero) { self.number - 1 } else { self.number };
        self.say(format!("line {number}: expected {expected}").as_bytes());
    }

    fn say(&mut self, line: &[u8]) {
        self.said.extend_from_slice(line);
        self.said.push(b'\n');
    }

    fn has_bytes_of_a_line(&self, line: &[u8]) -> Result<(), &'static str> {
        printable(line)?;
        let longest = LONGEST_LINE + usize::from(self.fault == Some(Fault::BytesAccepted201));
        if line.len() > longest { Err(messages::LENGTH) } else { Ok(()) }
    }
}

fn printable(line: &[u8]) -> Result<(), &'static str> {
    match line.iter().all(|byte| (b' '..=b'~').contains(byte)) {
        true => Ok(()),
        false => Err(messages::PRINTABLE),
    }
}

fn text(line: &[u8]) -> &str {
    std::str::from_utf8(line).expect("printable ASCII is UTF-8")
}

/// Whether a line is `var vK nJ`.
fn is_variable(words: &[&str]) -> bool {
    words.len() == 3 && parse_named(words[1], 'v').is_some() && parse_named(words[2], 'n').is_some()
}

/// Whether a line is `bind vN P`.
fn is_binding(words: &[&str]) -> bool {
    words.len() == 3 && parse_named(words[1], 'v').is_some() && parse_place(words[2]).is_some()
}

/// Whether a line binds one of so many variables that are counted and not kept. So may a second one.
fn is_binding_past_the_ceiling(words: &[&str], variables: usize) -> bool {
    let variable = || parse_named(words[1], 'v').map(usize::from);
    words[0] == "bind"
        && is_binding(words)
        && variable().is_some_and(|variable| (MAX_VARIABLES..variables).contains(&variable))
}

#[cfg(test)]
mod tests {
    use super::*;

    fn printed(input: &str) -> String {
        let mut output = Vec::new();
        run(input.as_bytes(), &mut output, None).expect("memory can be read and written");
        String::from_utf8(output).expect("it is ASCII")
    }

    /// The example of docs/FORMAT.md, and what it says of it.
    #[test]
    fn the_example_is_answered() {
        let input = "# Sub of FSet(v) to Set(Nat): v is Nat
    list a finite set where a set is wanted
sort s6 Set Nat
var v0 n0
node n1 FSet n0
expr e0 n0
sub n1 s6
? solve
= 0 sorts Nat measure 1";
        let output = "    list a finite set where a set is wanted\n0 a typing\ne0: Nat\nmeasure [1]\nchoices none\n";
        assert_eq!(printed(input), output);
    }

    /// By hand: names, choices, new sorts, a list that is passed over, one without a question.
    #[test]
    fn lines_are_as_the_format_says() {
        let input = "list one
sort s6 fn Nat Pos -> Pos
expr e0 Nat
expr e1 s6
expr e2 unit
name e2 builtin
disjunction e1 s6
  overload variable Bool
  overload op s6 s6
sub Pos Nat
comprehension Bool Nat Pos
? solve
list two
sub Nat
sub Nat
? solve
list three
list four
expr e0 Nat
disjunction e0 Nat
  overload op Nat Nat
lit Nat natural
sub Pos Int
? solve
";
        let output = "list one
17 no typing found
new s7 Set Pos
new s8 Bag Pos
list two
line 14: expected sub P P
list three
nothing is asked about this list
list four
0 a typing
e0: Nat, op Nat
measure [1, 2]
choices e0 0
";
        assert_eq!(printed(input), output);
    }
}
