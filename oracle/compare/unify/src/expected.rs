//! What a call must answer and leave: from the model of the checks, the excerpt and the model of
//! document 01, which must agree.

use lists::checks;
use lists::memory::Memory;
use lists::question::Question;
use lists::verdict::End;
use merc_plain::Places;

use crate::model;
use crate::model::Notes;

/// Questions that take the model more steps are left out: merc and the port take exponential time
/// where parts are heavily shared.
const MOST_STEPS: usize = 20_000;

#[derive(Debug, Eq, PartialEq)]
pub enum Expected {
    /// The first failing check.
    Refused(u16),
    No,
    /// The bindings of all variables, and what each stands for in merc.
    Yes {
        bindings: Vec<u16>,
        ends: Vec<End>,
    },
}

/// What is expected of a call, and what the model met on the way.
#[derive(Debug)]
pub struct Asked {
    pub expected: Expected,
    pub notes: Notes,
}

/// What is expected of a call, or none if it takes too long. A message where the judges differ.
pub fn expected(memory: &Memory, lhs: u16, rhs: u16) -> Result<Option<Asked>, String> {
    if let Some(code) = checks::first_failing(memory, Question::Unify(lhs, rhs)) {
        return Ok(Some(Asked { expected: Expected::Refused(code), notes: Notes::default() }));
    }
    let Some(outcome) = model::unify(memory, lhs, rhs, MOST_STEPS) else { return Ok(None) };
    let merc = merc(memory, lhs, rhs);
    let modelled = outcome.bindings.as_ref().map(|bindings| model::ends(memory, bindings)).transpose()?;
    if merc != modelled {
        return Err(format!("the judges differ: merc {merc:?}, the model {modelled:?}"));
    }
    let expected = match (outcome.bindings, merc) {
        (Some(bindings), Some(ends)) => Expected::Yes { bindings, ends },
        _ => Expected::No,
    };
    Ok(Some(Asked { expected, notes: outcome.notes }))
}

/// What each variable stands for after a yes of merc; none after a no.
fn merc(memory: &Memory, lhs: u16, rhs: u16) -> Option<Vec<End>> {
    let mut places = Places::load(memory);
    places.unify(lhs, rhs).then(|| places.ends())
}

/// The two models of check 7, on a list that passes those before it.
pub fn same_cycles(memory: &Memory) -> Result<(), String> {
    let cyclic = match checks::first_failing(memory, Question::Unify(0, 0)) {
        Some(code) if code < 7 => return Ok(()),
        code => code == Some(7),
    };
    match cyclic == model::reaches_itself(memory) {
        true => Ok(()),
        false => Err(format!("the models of check 7 differ: that of the checks says {cyclic}")),
    }
}

impl Expected {
    /// The answer as one number.
    pub fn packed(&self) -> u64 {
        match self {
            Expected::Refused(code) => u64::from(*code),
            Expected::No => 0,
            Expected::Yes { .. } => 256,
        }
    }

    /// The words of the bindings at exit, those past the variables included.
    pub fn exit(&self, memory: &Memory) -> Vec<u16> {
        let mut words = memory.bindings.clone();
        if let Expected::Yes { bindings, .. } = self {
            words[..bindings.len()].copy_from_slice(bindings);
        }
        words
    }
}
