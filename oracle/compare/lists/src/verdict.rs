//! A verdict in words, and the sorts of a typing in mCRL2 spelling.

use std::fmt::Write;

use lists::memory::Memory;
use lists::memory::kind;
use lists::memory::target;
use lists::verdict::Shape;
use lists::verdict::Tally;
use lists::verdict::Verdict;
use lists::write::shape_words;
use oracle::ask::Asked;

use crate::fault::Fault;
use crate::messages;

/// A sort is spelt in at most so many bytes, else by its number.
const LONGEST_TEXT: usize = 200;

/// The lines for an answer to `? solve`.
pub fn text(memory: &Memory, asked: &Asked, verdict: Option<&Verdict>, new: &[Shape], fault: Option<Fault>) -> String {
    let code = asked.answer.code;
    let mut text = format!("{code} {}\n", messages::of_code(code));
    let sorts = Sorts { memory, new, fault };
    if let Some(Verdict::Typing { sorts: typing, names, measure }) = verdict {
        for (expression, (&sort, &name)) in typing.iter().zip(names).enumerate() {
            line(&mut text, &format!("e{expression}: {}{}", sorts.spelt(sort), sorts.name(name)));
        }
        line(&mut text, &measure_words(measure, fault));
        line(&mut text, &format!("choices {}", choice_words(&asked.tally, fault)));
    }
    if code != 0 && fault == Some(Fault::NewOnlyForTyping) {
        return text;
    }
    for (index, sort) in new.iter().enumerate() {
        line(&mut text, &format!("new s{} {}", memory.sort_count + index, shape_words(sort)));
    }
    text
}

fn line(text: &mut String, line: &str) {
    writeln!(text, "{line}").expect("a string takes every line");
}

fn measure_words(measure: &[u8], fault: Option<Fault>) -> String {
    let mut words: Vec<String> = measure.iter().map(u8::to_string).collect();
    if fault == Some(Fault::MeasureReversed) {
        words.reverse();
    }
    format!("measure [{}]", words.join(", "))
}

/// By rising expression number.
fn choice_words(tally: &Tally, fault: Option<Fault>) -> String {
    let choices = match fault {
        Some(Fault::ChoicesByConstraint) => tally.choices.clone(),
        _ => tally.choices_rising(),
    };
    let from = if fault == Some(Fault::PositionsFromOne) { 1 } else { 0 };
    let words: Vec<String> =
        choices.iter().map(|(expression, position)| format!("e{expression} {}", position + from)).collect();
    if words.is_empty() { "none".to_string() } else { words.join(", ") }
}

/// The sorts of a list, those that the search made after the given ones.
struct Sorts<'a> {
    memory: &'a Memory,
    new: &'a [Shape],
    fault: Option<Fault>,
}

impl Sorts<'_> {
    fn name(&self, (kind, sort): (u16, u16)) -> String {
        match kind {
            target::NONE => String::new(),
            target::VARIABLE => ", variable".to_string(),
            target::BUILTIN => ", builtin".to_string(),
            target::OP if self.fault == Some(Fault::OpByNumber) => format!(", op s{sort}"),
            target::OP => format!(", op {}", self.spelt(sort)),
            kind => panic!("no typing has a name of kind {kind}"),
        }
    }

    fn spelt(&self, sort: u16) -> String {
        let mut text = String::new();
        match self.spell(sort, &mut text) {
            Some(()) => text,
            None => format!("s{sort}"),
        }
    }

    /// Appends the text of a sort. None where it has none, or one that is too long.
    fn spell(&self, number: u16, text: &mut String) -> Option<()> {
        let sort = self.shape(number);
        match sort.kind {
            kind::UNIT if self.fault == Some(Fault::UnitByWord) => text.push_str("unit"),
            kind::BOOL => text.push_str("Bool"),
            kind::POS => text.push_str("Pos"),
            kind::NAT => text.push_str("Nat"),
            kind::INT => text.push_str("Int"),
            kind::REAL => text.push_str("Real"),
            kind::LIST..=kind::FBAG => {
                text.push_str(["List(", "Set(", "FSet(", "Bag(", "FBag("][usize::from(sort.kind - kind::LIST)]);
                self.spell(sort.part, text)?;
                text.push(')');
            }
            kind::FUNCTION if !sort.arguments.is_empty() => {
                for (index, &argument) in sort.arguments.iter().enumerate() {
                    text.push_str(if index == 0 { "" } else { " # " });
                    self.spell(argument, text)?;
                }
                text.push_str(" -> ");
                self.spell(sort.part, text)?;
            }
            _ => return None,
        }
        let longest = if self.fault == Some(Fault::TextOf199) { LONGEST_TEXT - 1 } else { LONGEST_TEXT };
        (text.len() <= longest).then_some(())
    }

    fn shape(&self, number: u16) -> Shape {
        let number = usize::from(number);
        match number.checked_sub(self.memory.sort_count) {
            Some(index) => self.new[index].clone(),
            None => {
                let row = self.memory.sort(number);
                let arguments = match row.kind {
                    kind::FUNCTION => self.memory.sort_arguments(row).to_vec(),
                    _ => Vec::new(),
                };
                Shape { kind: row.kind, part: row.part, arguments }
            }
        }
    }
}
