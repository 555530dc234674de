//! Sorts, nodes and bindings: a list is put in once, then two of its places are unified, or all of it is solved.

use lists::memory::Memory;
use lists::verdict::End;
use lists::verdict::Verdict;

use crate::Lattice;
use crate::Unifier;
use crate::inference;
use crate::unification::bridge;

pub struct Places<'a> {
    memory: &'a Memory,
    pub(crate) lattice: Lattice,
    pub(crate) unifier: Unifier,
}

impl Places<'_> {
    /// Puts in a list whose sorts, nodes and bindings no check refuses.
    pub fn load(memory: &Memory) -> Places<'_> {
        Places { memory, lattice: Lattice::load(memory), unifier: bridge::load(memory) }
    }

    /// Puts in the sorts of a list alone.
    pub(crate) fn of_sorts(memory: &Memory) -> Places<'_> {
        Places { memory, lattice: Lattice::load(memory), unifier: Unifier::new() }
    }

    /// Whether the two places unify. After a no some bindings may stay, as in merc.
    pub fn unify(&mut self, lhs: u16, rhs: u16) -> bool {
        let (lhs, rhs) = (bridge::node_id(self.memory, lhs), bridge::node_id(self.memory, rhs));
        self.unifier.unify(&self.lattice.sorts, lhs, rhs)
    }

    /// What each variable stands for.
    pub fn ends(&mut self) -> Vec<End> {
        bridge::ends(&mut self.unifier, self.memory)
    }
}

/// A whole list: it is put in once, then solved.
pub struct Listed<'a> {
    pub(crate) places: Places<'a>,
    problem: inference::bridge::Problem,
}

impl Listed<'_> {
    /// Puts in a list that no check refuses.
    pub fn load(memory: &Memory) -> Listed<'_> {
        Listed { places: Places::load(memory), problem: inference::bridge::load(memory) }
    }

    pub fn solve(&mut self) -> Verdict {
        let Places { lattice, unifier, .. } = &mut self.places;
        inference::bridge::solve(&mut lattice.sorts, unifier, &self.problem)
    }
}
