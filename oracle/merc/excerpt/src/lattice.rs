//! The sorts alone: a list is put in once, then asked about. Numbers of the list are merc's ids.

use std::cmp::Ordering;

use lists::memory::Memory;
use lists::question::Question;
use lists::verdict::Reply;
use lists::verdict::Shape;

use crate::SortInterner;
use crate::resolved_sort::bridge;
use crate::resolved_sort::bridge::number;
use crate::resolved_sort::bridge::sort_id;

pub struct Lattice {
    pub(crate) sorts: SortInterner,
}

impl Lattice {
    /// Puts in a list whose sorts no check refuses.
    pub fn load(memory: &Memory) -> Lattice {
        Lattice { sorts: bridge::load(memory) }
    }

    /// The fixed six sorts alone.
    pub fn fixed_six() -> Lattice {
        Lattice { sorts: SortInterner::new() }
    }

    /// The container of a kind over a sort; made where it is not there.
    pub fn container(&mut self, kind: u16, part: u16) -> u16 {
        number(self.sorts.generic(bridge::container(kind), sort_id(part)))
    }

    /// The function of these arguments and range; made where it is not there.
    pub fn function(&mut self, arguments: &[u16], range: u16) -> u16 {
        let domain = arguments.iter().map(|&argument| sort_id(argument)).collect();
        number(self.sorts.function(domain, sort_id(range)))
    }

    /// Asks one of the five questions about sorts.
    pub fn ask(&mut self, question: Question) -> Reply {
        match question {
            Question::PartialCmp(lhs, rhs) => Reply::Order(self.partial_cmp(lhs, rhs)),
            Question::Join(lhs, rhs) => Reply::Bound(self.join(lhs, rhs)),
            Question::Meet(lhs, rhs) => Reply::Bound(self.meet(lhs, rhs)),
            Question::WideningDistance(from, to) => Reply::Distance(self.widening_distance(from, to)),
            Question::IsMaterializable(from, to) => Reply::Materializable(self.is_materializable(from, to)),
            Question::Solve | Question::Unify(..) => panic!("{question:?} is not about sorts alone"),
        }
    }

    pub fn partial_cmp(&self, lhs: u16, rhs: u16) -> Option<Ordering> {
        self.sorts.partial_cmp(sort_id(lhs), sort_id(rhs))
    }

    pub fn join(&mut self, lhs: u16, rhs: u16) -> Option<u16> {
        self.sorts.join(sort_id(lhs), sort_id(rhs)).map(number)
    }

    pub fn meet(&mut self, lhs: u16, rhs: u16) -> Option<u16> {
        self.sorts.meet(sort_id(lhs), sort_id(rhs)).map(number)
    }

    pub fn widening_distance(&self, from: u16, to: u16) -> Option<(u8, u8)> {
        self.sorts.widening_distance(sort_id(from), sort_id(to))
    }

    pub fn is_materializable(&self, from: u16, to: u16) -> bool {
        self.sorts.is_materializable(sort_id(from), sort_id(to))
    }

    /// The sort of a number.
    pub fn sort(&self, number: u16) -> Shape {
        bridge::shape(self.sorts.get(sort_id(number)))
    }

    /// The sorts from number `first` on, in order of making; from 0 on, all of them.
    pub fn sorts_from(&self, first: usize) -> Vec<Shape> {
        bridge::sorts_from(&self.sorts, first)
    }
}
