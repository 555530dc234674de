//! What two sorts are to each other, asked of the excerpt of merc, and how it is written.

use std::cmp::Ordering;
use std::io;
use std::io::Write;

use lists::memory::kind;
use merc_plain::Lattice;

use crate::fault::Fault;
use crate::sort::BASIC;
use crate::sort::CONTAINERS;
use crate::sort::Sort;
use crate::sort::word_of;

#[derive(Debug)]
pub struct Answer {
    pub order: Option<Ordering>,
    pub join: Option<String>,
    pub meet: Option<String>,
    /// Head and interior.
    pub distance: Option<(u8, u8)>,
    pub materializable: bool,
}

impl Answer {
    /// Begins with the fixed six sorts alone and stores the two sorts.
    pub fn about(lhs: &Sort, rhs: &Sort, fault: Option<Fault>) -> Answer {
        let lattice = &mut Lattice::fixed_six();
        let (lhs, rhs) = (store(lattice, lhs), store(lattice, rhs));
        let mut answer = Answer {
            order: lattice.partial_cmp(lhs, rhs),
            join: lattice.join(lhs, rhs).map(|sort| text(lattice, sort)),
            meet: lattice.meet(lhs, rhs).map(|sort| text(lattice, sort)),
            distance: lattice.widening_distance(lhs, rhs),
            materializable: lattice.is_materializable(lhs, rhs),
        };
        match fault {
            Some(Fault::JoinMeetExchanged) => std::mem::swap(&mut answer.join, &mut answer.meet),
            Some(Fault::HeadInteriorExchanged) => {
                answer.distance = answer.distance.map(|(head, interior)| (interior, head))
            }
            Some(Fault::MaterializableBack) => answer.materializable = lattice.is_materializable(rhs, lhs),
            _ => {}
        }
        answer
    }

    pub fn write(&self, output: &mut impl Write) -> io::Result<()> {
        let order = match self.order {
            Some(Ordering::Equal) => "=",
            Some(Ordering::Less) => "<",
            Some(Ordering::Greater) => ">",
            None => "|",
        };
        let bound = |bound: &Option<String>| bound.clone().unwrap_or_else(none);
        let distance = self.distance.map_or_else(none, |(head, interior)| format!("{head} {interior}"));
        let materializable = if self.materializable { "yes" } else { "no" };
        write!(output, "{order}, {}, {}, {distance}, {materializable}", bound(&self.join), bound(&self.meet))
    }
}

fn none() -> String {
    "none".to_string()
}

/// Stores parts first, arguments left to right, then the range, then the whole.
fn store(lattice: &mut Lattice, sort: &Sort) -> u16 {
    match sort {
        Sort::Basic(kind) => *kind,
        Sort::Container(kind, part) => {
            let part = store(lattice, part);
            lattice.container(*kind, part)
        }
        Sort::Function(arguments, range) => {
            let arguments: Vec<u16> = arguments.iter().map(|argument| store(lattice, argument)).collect();
            let range = store(lattice, range);
            lattice.function(&arguments, range)
        }
    }
}

/// The text of a stored sort: argument texts joined by ` # `, then ` -> ` and the range.
fn text(lattice: &Lattice, number: u16) -> String {
    let sort = lattice.sort(number);
    match sort.kind {
        kind::FUNCTION => {
            let arguments: Vec<String> = sort.arguments.iter().map(|&argument| text(lattice, argument)).collect();
            format!("{} -> {}", arguments.join(" # "), text(lattice, sort.part))
        }
        kind => match (word_of(&BASIC, kind), word_of(&CONTAINERS, kind)) {
            (Some(word), _) => word.to_string(),
            (None, Some(word)) => format!("{word}({})", text(lattice, sort.part)),
            (None, None) => panic!("no line has a sort of kind {kind}"),
        },
    }
}
