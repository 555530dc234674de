//! Answer lines: a code, then sections, each a keyword with its words.

use std::cmp::Ordering;
use std::fmt;

use crate::memory::target;
use crate::read::Words;
use crate::verdict::End;
use crate::verdict::Heard;
use crate::verdict::Reply;
use crate::verdict::Shape;
use crate::verdict::Tally;
use crate::verdict::Verdict;
use crate::write::place_word;
use crate::write::shape_words;
use crate::write::sort_word;

/// The keywords that begin a section. No other word of an answer is one of these.
const SECTIONS: [&str; 12] = [
    "sorts",
    "names",
    "measure",
    "choices",
    "new",
    "nodes",
    "unifies",
    "ends",
    "order",
    "sort",
    "distance",
    "materializable",
];

#[derive(Clone, Debug, Eq, PartialEq)]
pub struct Answer {
    pub code: u16,
    sections: Vec<(&'static str, String)>,
}

impl fmt::Display for Answer {
    fn fmt(&self, f: &mut fmt::Formatter<'_>) -> fmt::Result {
        write!(f, "= {}", self.code)?;
        for (section, words) in &self.sections {
            write!(f, " {section}")?;
            if !words.is_empty() {
                write!(f, " {words}")?;
            }
        }
        Ok(())
    }
}

impl Answer {
    /// A code with nothing beside it: a refusal, or a search that ran out of room.
    pub fn code(code: u16) -> Answer {
        Answer { code, sections: Vec::new() }
    }

    fn with(mut self, section: &'static str, words: impl IntoIterator<Item = String>) -> Answer {
        self.sections.push((section, words.into_iter().collect::<Vec<_>>().join(" ")));
        self
    }

    /// The answer without one of its sections.
    pub fn without(mut self, section: &str) -> Answer {
        self.sections.retain(|(other, _)| *other != section);
        self
    }

    /// The answer to a question that was put to the Rust on a list of `sorts` sorts. The choices stand in the tally as they
    /// are handed out.
    pub fn heard(heard: &Heard, tally: &Tally, sorts: usize) -> Answer {
        let new = new_words(sorts, &heard.new);
        match &heard.reply {
            Reply::Solve(verdict) => Answer::solve(verdict, tally, new),
            Reply::Unify(None) => Answer::code(0).with("unifies", ["no".to_string()]),
            Reply::Unify(Some(ends)) => {
                Answer::code(0).with("unifies", ["yes".to_string()]).with("ends", ends.iter().map(end_word))
            }
            Reply::Order(order) => Answer::code(0).with("order", [order_word(*order)]),
            Reply::Bound(sort) => {
                let word = sort.map_or("none".to_string(), sort_word);
                Answer::code(0).with("sort", [word]).with("new", new)
            }
            Reply::Distance(distance) => {
                let word = distance.map_or("none".to_string(), |(head, interior)| format!("{head} {interior}"));
                Answer::code(0).with("distance", [word])
            }
            Reply::Materializable(answer) => {
                Answer::code(0).with("materializable", [if *answer { "yes" } else { "no" }.to_string()])
            }
        }
    }

    fn solve(verdict: &Verdict, tally: &Tally, new: Vec<String>) -> Answer {
        let mut answer = Answer::code(verdict.code());
        if let Verdict::Typing { sorts, names, measure } = verdict {
            answer = answer
                .with("sorts", sorts.iter().map(|&sort| sort_word(sort)))
                .with("names", names.iter().map(|&(kind, sort)| name_words(kind, sort)))
                .with("measure", measure.iter().map(u8::to_string))
                .with("choices", choice_words(&tally.choices));
        }
        let made = format!("made {} {}", tally.nodes_made, tally.node_entries_made);
        let peak = format!("peak {} {}", tally.nodes_peak, tally.node_entries_peak);
        answer.with("new", new).with("nodes", [made, peak])
    }

    /// The code, and for questions other than `solve` what was answered, in a word.
    pub fn label(&self) -> (u16, String) {
        let label = match self.sections.first() {
            Some((section @ ("unifies" | "order" | "materializable"), words)) => format!("{section} {words}"),
            Some((section @ ("sort" | "distance"), words)) => {
                format!("{section} {}", if words == "none" { "none" } else { "some" })
            }
            _ => String::new(),
        };
        (self.code, label)
    }

    /// Reads what follows the `=` of an answer line.
    pub fn parse(text: &str) -> Result<Answer, String> {
        let mut words = Words::new(text);
        let mut answer = Answer::code(words.number()?);
        while !words.is_empty() {
            let word = words.next("a section")?;
            if let Some(&section) = SECTIONS.iter().find(|&&section| section == word) {
                answer.sections.push((section, String::new()));
            } else if let Some((_, words)) = answer.sections.last_mut() {
                words.push_str(if words.is_empty() { "" } else { " " });
                words.push_str(word);
            } else {
                return Err(format!("expected a section such as `sorts`, found `{word}`"));
            }
        }
        Ok(answer)
    }

    /// Whether a fresh answer has the code and each section that this recorded one has. A recorded
    /// answer may leave sections out.
    pub fn agrees_with(&self, fresh: &Answer) -> bool {
        self.code == fresh.code && self.sections.iter().all(|section| fresh.sections.contains(section))
    }
}

fn name_words(kind: u16, sort: u16) -> String {
    match kind {
        target::NONE => "none".to_string(),
        target::VARIABLE => "variable".to_string(),
        target::OP => format!("op {}", sort_word(sort)),
        _ => "builtin".to_string(),
    }
}

/// As they stand.
fn choice_words(choices: &[(u16, u16)]) -> Vec<String> {
    choices.iter().map(|(expression, position)| format!("e{expression} {position}")).collect()
}

fn new_words(first: usize, new: &[Shape]) -> Vec<String> {
    let numbered = new.iter().enumerate();
    numbered.map(|(index, sort)| format!("s{} {}", first + index, shape_words(sort))).collect()
}

fn order_word(order: Option<Ordering>) -> String {
    match order {
        Some(Ordering::Equal) => "equal",
        Some(Ordering::Less) => "less",
        Some(Ordering::Greater) => "greater",
        None => "none",
    }
    .to_string()
}

fn end_word(end: &End) -> String {
    match *end {
        End::Place(word) => place_word(word),
        End::Free(variable) => format!("v{variable}"),
    }
}
