//! The lists and questions of `by-hand.txt`, with their answers.

use lists::memory::FREE;
use lists::question::Question;
use lists::read::Item;
use lists::read::Reader;
use lists::read::Words;

use crate::cases::Case;

const TEXT: &str = include_str!("../../by-hand.txt");

/// An answer that was derived by hand.
#[derive(Debug, Eq, PartialEq)]
pub enum Answer {
    Refused(u16),
    No,
    /// The variables that are bound, and to what.
    Yes(Vec<(u16, u16)>),
}

/// A list with its title and the answers to its questions.
pub struct Written {
    pub title: String,
    pub case: Case,
    pub answers: Vec<Answer>,
}

impl Answer {
    /// The answer as one number.
    pub fn packed(&self) -> u64 {
        match self {
            Answer::Refused(code) => u64::from(*code),
            Answer::No => 0,
            Answer::Yes(_) => 256,
        }
    }

    /// The words of the bindings at exit.
    pub fn exit(&self, given: &[u16]) -> Vec<u16> {
        let mut words = given.to_vec();
        if let Answer::Yes(bound) = self {
            for &(variable, place) in bound {
                let word = &mut words[usize::from(variable)];
                assert_eq!(*word, FREE, "variable {variable} is bound already");
                *word = place;
            }
        }
        words
    }
}

pub fn by_hand() -> Vec<Written> {
    let mut reader = Reader::new();
    let mut all: Vec<Written> = Vec::new();
    for (index, line) in TEXT.lines().enumerate() {
        let written = match line.strip_prefix("= ") {
            Some(answer) => add_answer(&mut all, answer),
            None => add_line(&mut reader, &mut all, line),
        };
        written.unwrap_or_else(|message| panic!("by-hand.txt line {}: {message}", index + 1));
    }
    for written in &all {
        assert_eq!(written.case.pairs.len(), written.answers.len(), "answers of list {}", written.title);
    }
    all
}

fn add_line(reader: &mut Reader, all: &mut Vec<Written>, line: &str) -> Result<(), String> {
    let item = reader.read(line.as_bytes()).map_err(|bad| bad.message)?;
    if let Item::Question(Question::Unify(lhs, rhs)) = item {
        let list = reader.list().expect("a question comes after `list`");
        if all.last().is_none_or(|last| last.title != list.title) {
            let case = Case::new(list.memory(), Vec::new());
            all.push(Written { title: list.title.clone(), case, answers: Vec::new() });
        }
        all.last_mut().expect("it was pushed").case.pairs.push((lhs, rhs));
    }
    Ok(())
}

fn add_answer(all: &mut [Written], text: &str) -> Result<(), String> {
    let written = all.last_mut().ok_or("an answer comes after a question")?;
    written.answers.push(answer(text)?);
    Ok(())
}

fn answer(text: &str) -> Result<Answer, String> {
    let mut words = Words::new(text);
    match words.next("an answer")? {
        "no" => Ok(Answer::No),
        "yes" => {
            let mut bound = Vec::new();
            while !words.is_empty() {
                let variable = words.next("a variable")?;
                let number = variable.strip_prefix('v').and_then(|number| number.parse().ok());
                bound.push((number.ok_or_else(|| format!("`{variable}` is not a variable"))?, words.place()?));
            }
            Ok(Answer::Yes(bound))
        }
        code => code.parse().map(Answer::Refused).map_err(|_| format!("`{code}` is not an answer")),
    }
}
