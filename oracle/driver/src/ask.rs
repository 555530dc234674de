//! Puts a question to the excerpt: first the checks, then the counting build and the plain build,
//! which must agree.

use std::any::Any;
use std::fmt;
use std::panic;

use lists::answer::Answer;
use lists::checks;
use lists::memory::Memory;
use lists::question::Question;
use lists::verdict::Heard;
use lists::verdict::Tally;
use merc_counting::ledger;
use merc_counting::ledger::OutOfRoom;

/// An answer, and what the search did on the way to it.
pub struct Asked {
    pub answer: Answer,
    /// The Rust's own reply; none after a refusal and where room ended.
    pub heard: Option<Heard>,
    pub tally: Tally,
}

/// Why there is no answer.
#[derive(Debug)]
pub enum Failure {
    /// The Rust panicked; the message.
    Panic(String),
    /// The two builds differ.
    Disagreement { plain: Box<Heard>, counting: Box<Heard> },
}

impl fmt::Display for Failure {
    fn fmt(&self, f: &mut fmt::Formatter<'_>) -> fmt::Result {
        match self {
            Failure::Panic(message) => write!(f, "the Rust panicked: {message}"),
            Failure::Disagreement { plain, counting } => {
                write!(f, "the builds differ: plain {plain:?}, counting {counting:?}")
            }
        }
    }
}

pub fn ask(memory: &Memory, question: Question) -> Result<Asked, Failure> {
    if let Some(code) = checks::first_failing(memory, question) {
        return Ok(Asked { answer: Answer::code(code), heard: None, tally: Tally::default() });
    }
    Ok(match hear(memory, question)? {
        (Err(room), tally) => Asked { answer: Answer::code(room.code()), heard: None, tally },
        (Ok(heard), tally) => {
            let handed_out = Tally { choices: tally.choices_rising(), ..tally.clone() };
            let answer = Answer::heard(&heard, &handed_out, memory.sort_count);
            Asked { answer, heard: Some(heard), tally }
        }
    })
}

/// What both builds say of a list that no check refuses, or where room ended, and what was counted.
pub fn hear(memory: &Memory, question: Question) -> Result<(Result<Heard, OutOfRoom>, Tally), Failure> {
    let counted = panic::catch_unwind(|| merc_counting::ask(memory, question));
    let tally = ledger::end();
    let counting = match counted {
        Ok(heard) => heard,
        Err(thrown) => match thrown.downcast_ref::<OutOfRoom>() {
            Some(room) => return Ok((Err(*room), tally)),
            None => return Err(Failure::Panic(message(&*thrown))),
        },
    };
    let plain = panic::catch_unwind(|| merc_plain::ask(memory, question))
        .map_err(|thrown| Failure::Panic(message(&*thrown)))?;
    if plain != counting {
        return Err(Failure::Disagreement { plain: Box::new(plain), counting: Box::new(counting) });
    }
    Ok((Ok(counting), tally))
}

fn message(thrown: &(dyn Any + Send)) -> String {
    let text = thrown.downcast_ref::<&str>().map(|text| text.to_string());
    text.or_else(|| thrown.downcast_ref::<String>().cloned()).unwrap_or_else(|| "no message".to_string())
}
