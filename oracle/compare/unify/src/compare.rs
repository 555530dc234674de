//! One question put to the port, to the excerpt and to the model.

use common::guard::GUARD;
use common::guard::guarded;
use common::guard::same_words;
use lists::memory::Memory;
use lists::verdict::End;

use crate::expected::Asked;
use crate::expected::Expected;
use crate::expected::expected;
use crate::model;
use crate::port::Port;

/// The slices that a call is lent, each with its guard words.
#[derive(Clone)]
pub struct Lent {
    pub sorts: Vec<u16>,
    pub nodes: Vec<u16>,
    pub bindings: Vec<u16>,
}

impl Lent {
    pub fn new(memory: &Memory) -> Lent {
        Lent { sorts: guarded(&memory.sorts), nodes: guarded(&memory.nodes), bindings: guarded(&memory.bindings) }
    }
}

/// A list on which questions are asked, one after another, each on the list as it was given.
pub struct Desk<'a> {
    port: Port,
    memory: &'a Memory,
    given: Lent,
    lent: Lent,
}

impl Desk<'_> {
    pub fn new(port: Port, memory: &Memory) -> Desk<'_> {
        let given = Lent::new(memory);
        Desk { port, memory, lent: given.clone(), given }
    }

    /// Asks the port, and compares its answer and all of memory at exit with what is expected. None
    /// where the question takes too long.
    pub fn compare(&mut self, lhs: u16, rhs: u16) -> Result<Option<Asked>, String> {
        let Some(asked) = expected(self.memory, lhs, rhs)? else { return Ok(None) };
        let answer = self.port.ask(&mut self.lent, self.memory, lhs, rhs);
        if answer != asked.expected.packed() {
            return Err(format!("the answer is {answer}, expected {}", asked.expected.packed()));
        }
        if let Expected::Yes { ends, .. } = &asked.expected {
            self.same_ends(ends)?;
        }
        same_words("the bindings", &self.lent.bindings, &guarded(&asked.expected.exit(self.memory)))?;
        same_words("the sorts", &self.lent.sorts, &self.given.sorts)?;
        same_words("the nodes", &self.lent.nodes, &self.given.nodes)?;
        self.lent.bindings.copy_from_slice(&self.given.bindings);
        Ok(Some(asked))
    }

    /// What each variable stands for by the port's bindings, against merc's.
    fn same_ends(&self, expected: &[End]) -> Result<(), String> {
        let found = model::ends(self.memory, &self.lent.bindings[GUARD..][..self.memory.variable_count])?;
        match (0..expected.len()).find(|&variable| found[variable] != expected[variable]) {
            None => Ok(()),
            Some(variable) => Err(format!(
                "variable {variable} stands for {:?}, in merc for {:?}",
                found[variable], expected[variable]
            )),
        }
    }
}

#[cfg(test)]
mod tests {
    use super::*;
    use crate::cases::by_hand;
    use crate::fault::Fault;

    /// The answers written by hand are those of the judges.
    #[test]
    fn judges_say_what_was_written_by_hand() {
        for written in by_hand() {
            for (&(lhs, rhs), answer) in written.case.pairs.iter().zip(&written.answers) {
                let memory = &written.case.memory;
                let asked = expected(memory, lhs, rhs).expect("the judges agree").expect("it is short");
                assert_eq!(asked.expected.packed(), answer.packed(), "{}: {lhs} {rhs}", written.title);
                assert_eq!(
                    asked.expected.exit(memory),
                    answer.exit(&memory.bindings),
                    "{}: {lhs} {rhs}",
                    written.title
                );
            }
        }
    }

    /// How many of the questions written by hand show a difference.
    fn differences(port: Port) -> usize {
        let lists = by_hand();
        let questions = lists.iter().flat_map(|written| {
            written.case.pairs.iter().map(|&(lhs, rhs)| Desk::new(port, &written.case.memory).compare(lhs, rhs))
        });
        questions.filter(Result::is_err).count()
    }

    #[test]
    fn the_port_has_no_difference() {
        assert_eq!(differences(Port::Library), 0);
    }

    #[test]
    fn wrong_ports_are_found() {
        for (fault, what) in Fault::ALL {
            assert!(differences(Port::Wrong(fault)) > 0, "not found: {what}");
        }
    }
}
