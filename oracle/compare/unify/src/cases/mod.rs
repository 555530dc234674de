//! The cases: lists with places to unify. Case N of a class and seed is always the same.

mod chains;
mod damage;
mod deep;
mod full;
mod hand;
mod many;
mod mixed;
mod sample;
mod small;
mod timed;
mod words;

use common::junk::Junk;
use lists::checks;
use lists::memory::Memory;
use lists::question::Question;
use lists::rng::Rng;
use lists::write::question_line;

use crate::compare::Desk;
use crate::counts::Counts;
use crate::expected::Asked;
use crate::expected::Expected;
use crate::expected::same_cycles;
use crate::port::Port;
use crate::terms::Terms;
use crate::text::list_text;
use crate::text::spelled;

pub use hand::Answer;
pub use hand::Written;
pub use hand::by_hand;
pub use sample::sample;
pub use timed::Timed;

/// Kinds of lists that can be made.
#[derive(Clone, Copy, Debug, Eq, PartialEq)]
pub enum Class {
    /// Every way to bind three variables to 16 places, and every pair of these.
    Small,
    /// Random lists of all kinds of sorts and nodes.
    Mixed,
    /// Functions of few variables, each in many places of both sides.
    Tangled,
    /// Functions with up to 16 arguments.
    Wide,
    /// Chains of up to 500 bindings.
    Chains,
    /// Nesting up to 900 deep.
    Deep,
    /// Terms of up to 512 variables, most of which one call binds.
    Many,
    /// Lists at the ceilings, or one below.
    Full,
    /// One or two faults, each pair of checks in turn.
    Damaged,
    /// A few words, counts or lengths changed at random.
    Words,
}

impl Class {
    pub const ALL: [(Class, &'static str); 10] = [
        (Class::Small, "small"),
        (Class::Mixed, "mixed"),
        (Class::Tangled, "tangled"),
        (Class::Wide, "wide"),
        (Class::Chains, "chains"),
        (Class::Deep, "deep"),
        (Class::Many, "many"),
        (Class::Full, "full"),
        (Class::Damaged, "damaged"),
        (Class::Words, "words"),
    ];

    pub fn name(self) -> &'static str {
        Class::ALL[self as usize].1
    }
}

/// A list in memory with pairs of places to unify.
pub struct Case {
    pub memory: Memory,
    pub pairs: Vec<(u16, u16)>,
    /// The check that must refuse every question, where a fault was planted.
    pub planted: Option<u16>,
}

impl Case {
    fn new(memory: Memory, pairs: Vec<(u16, u16)>) -> Case {
        Case { memory, pairs, planted: None }
    }

    /// Asks all questions. A difference comes with its question and the list.
    pub fn compare(&self, port: Port, counts: &mut Counts) -> Result<(), String> {
        counts.lists += 1;
        same_cycles(&self.memory)?;
        let mut desk = Desk::new(port, &self.memory);
        for &(lhs, rhs) in &self.pairs {
            let asked = desk.compare(lhs, rhs).and_then(|asked| self.as_planted(asked));
            match asked.map_err(|message| self.shown(lhs, rhs, &message))? {
                Some(asked) => counts.add(&asked),
                None => counts.left_out += 1,
            }
        }
        Ok(())
    }

    /// A difference, its question and the list, in the words of docs/FORMAT.md and as numbers.
    fn shown(&self, lhs: u16, rhs: u16, message: &str) -> String {
        let question = Question::Unify(lhs, rhs);
        let spelled = match checks::first_failing(&self.memory, question) {
            None => spelled(&self.memory),
            Some(code) => format!("refused with {code}\n"),
        };
        format!("{}: {message}\n{spelled}{}", question_line(question), list_text(&self.memory))
    }

    fn as_planted(&self, asked: Option<Asked>) -> Result<Option<Asked>, String> {
        match (self.planted, &asked) {
            (Some(code), Some(asked)) if asked.expected != Expected::Refused(code) => {
                Err(format!("fault {code} was planted, expected is {:?}", asked.expected))
            }
            _ => Ok(asked),
        }
    }
}

/// Makes the cases of one class and seed.
pub struct Cases {
    class: Class,
    seed: u64,
    junk: Junk,
}

impl Cases {
    pub fn new(class: Class, seed: u64) -> Cases {
        Cases { class, seed, junk: Junk::new(seed) }
    }

    /// Case `index`, or `None` past the end of an enumerated class.
    pub fn case(&self, index: u64) -> Option<Case> {
        let rng = &mut Rng::of_list(self.seed, index);
        let case = match self.class {
            Class::Small => small::case(Terms::new(rng), &self.junk, index)?,
            Class::Mixed => mixed::mixed(Terms::new(rng), &self.junk),
            Class::Tangled => mixed::tangled(Terms::new(rng), &self.junk),
            Class::Wide => mixed::wide(Terms::new(rng), &self.junk),
            Class::Chains => chains::case(Terms::new(rng), &self.junk),
            Class::Deep => deep::case(Terms::new(rng), &self.junk),
            Class::Many => many::case(Terms::new(rng), &self.junk),
            Class::Full => full::case(Terms::new(rng), &self.junk),
            Class::Damaged => damage::case(rng, &self.junk, index),
            Class::Words => words::case(rng, &self.junk),
        };
        Some(case)
    }
}
