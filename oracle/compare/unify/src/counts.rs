//! How many questions had which answer.

use std::collections::BTreeMap;
use std::fmt;

use crate::expected::Asked;
use crate::expected::Expected;

#[derive(Default)]
pub struct Counts {
    pub lists: u64,
    pub questions: u64,
    /// Questions that take too long, which were not asked.
    pub left_out: u64,
    /// By how many bindings the answer made: none, one, more.
    yes: [u64; 3],
    no: u64,
    /// Of the no: by the occurs check, and those that took bindings back.
    no_by_occurs: u64,
    no_after_bindings: u64,
    /// Two nodes of one variable were met.
    twins: u64,
    most_bound: usize,
    refused: BTreeMap<u16, u64>,
}

impl Counts {
    pub fn add(&mut self, asked: &Asked) {
        self.questions += 1;
        let notes = asked.notes;
        self.twins += u64::from(notes.twins);
        match asked.expected {
            Expected::Refused(code) => *self.refused.entry(code).or_default() += 1,
            Expected::No => {
                self.no += 1;
                self.no_by_occurs += u64::from(notes.occurs);
                self.no_after_bindings += u64::from(notes.bound > 0);
            }
            Expected::Yes { .. } => {
                self.yes[notes.bound.min(2)] += 1;
                self.most_bound = self.most_bound.max(notes.bound);
            }
        }
    }
}

impl fmt::Display for Counts {
    fn fmt(&self, f: &mut fmt::Formatter<'_>) -> fmt::Result {
        let [none, one, more] = self.yes;
        writeln!(
            f,
            "  yes: {} ({none} bind nothing, {one} one variable, {more} more, at most {})",
            none + one + more,
            self.most_bound
        )?;
        writeln!(
            f,
            "  no: {} ({} by the occurs check, {} with bindings taken back)",
            self.no, self.no_by_occurs, self.no_after_bindings
        )?;
        let refused: Vec<String> = self.refused.iter().map(|(code, count)| format!("{code}: {count}")).collect();
        let refused = if refused.is_empty() { "none".to_string() } else { refused.join(", ") };
        write!(f, "  refused: {refused}")?;
        write!(f, "\n  with two nodes of one variable: {}; left out as too long: {}", self.twins, self.left_out)
    }
}
