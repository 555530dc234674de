//! Fills lists up with rows that nothing refers to, at the end or before all rows of their own, such as the `pad` lines
//! of docs/FORMAT.md give.

use lists::given::Given;
use lists::memory::*;

/// A declared sort by its own number, which no list has otherwise.
fn pad_sort(number: usize) -> Row {
    Row::plain(kind::DEF, number as u16)
}

const PAD_NODE: Row = Row { kind: kind::LIST, part: kind::BOOL, start: 0, count: 0 };

/// Appends sorts up to a count.
pub fn sorts(list: &mut Given, count: usize) {
    for number in list.sorts.len()..count {
        list.sorts.push(pad_sort(number));
    }
}

/// Appends nodes up to a count.
pub fn nodes(list: &mut Given, count: usize) {
    list.nodes.resize(count.max(list.nodes.len()), PAD_NODE);
}

/// Appends words up to a count.
pub fn entries(entries: &mut Vec<u16>, count: usize) {
    entries.resize(count.max(entries.len()), 0);
}

/// Puts sorts after the fixed six and nodes before all nodes, so that the list's own have high numbers.
pub fn before(list: &mut Given, sorts: usize, nodes: usize) {
    let higher = Higher { sorts: sorts as u16, nodes: nodes as u16 };
    higher.renumber(list);
    list.sorts.splice(6..6, (6..6 + sorts).map(pad_sort));
    list.nodes.splice(..0, std::iter::repeat_n(PAD_NODE, nodes));
}

/// By how much the numbers of sorts past the fixed six and of nodes rise.
struct Higher {
    sorts: u16,
    nodes: u16,
}

impl Higher {
    fn sort(&self, sort: &mut u16) {
        if *sort > kind::REAL {
            *sort += self.sorts;
        }
    }

    fn place(&self, place: &mut u16) {
        match Place::of(*place) {
            Place::Sort(_) => self.sort(place),
            Place::Node(_) => *place += self.nodes,
        }
    }

    fn target(&self, kind: u16, sort: &mut u16) {
        if kind == target::OP {
            self.sort(sort);
        }
    }

    fn renumber(&self, list: &mut Given) {
        for row in list.sorts.iter_mut().filter(|row| (kind::LIST..=kind::FUNCTION).contains(&row.kind)) {
            self.sort(&mut row.part);
        }
        for row in list.nodes.iter_mut().filter(|row| (kind::LIST..=kind::FUNCTION).contains(&row.kind)) {
            self.place(&mut row.part);
        }
        let named = |place: &&mut u16| **place < FIRST_NODE + MAX_NODES as u16;
        list.entries.iter_mut().filter(named).for_each(|sort| self.sort(sort));
        list.node_entries.iter_mut().filter(named).for_each(|place| self.place(place));
        list.bindings.iter_mut().filter(named).for_each(|place| self.place(place));
        list.sources.iter_mut().filter(named).for_each(|place| self.place(place));
        list.exprs.iter_mut().for_each(|place| self.place(place));
        for [_, kind, sort] in &mut list.names {
            self.target(*kind, sort);
        }
        for [kind, sort, place] in &mut list.overloads {
            self.target(*kind, sort);
            self.place(place);
        }
        for [kind, a, b, c, _] in &mut list.constraints {
            match *kind {
                constraint::SUB => [a, b].into_iter().for_each(|place| self.place(place)),
                constraint::LIT | constraint::JOIN => self.place(a),
                constraint::DISJUNCTION => self.place(b),
                _ => {
                    [a, b].into_iter().for_each(|place| self.place(place));
                    self.sort(c);
                }
            }
        }
        self.sort(&mut list.default);
    }
}
