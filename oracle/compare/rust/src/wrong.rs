//! Lists changed behind the crate's back: the comparison must find each change.

use lists::given::Given;
use lists::memory::*;

/// What is changed, by name.
pub const WRONG: [(&str, fn(&mut Given)); 14] = [
    ("sub-swapped", |list| rows(list, constraint::SUB, |row| row.swap(1, 2))),
    ("literal-kind", |list| rows(list, constraint::LIT, |row| row[2] ^= 1)),
    ("comprehension-swapped", |list| rows(list, constraint::COMPREHENSION, |row| row.swap(1, 2))),
    ("element", |list| rows(list, constraint::COMPREHENSION, |row| row[3] = kind::REAL)),
    ("overloads-reversed", |list| list.overloads.reverse()),
    ("overload-target", |list| list.overloads.iter_mut().for_each(|row| row[0] = target::BUILTIN)),
    ("sources-reversed", |list| list.sources.reverse()),
    ("last-constraint-dropped", |list| _ = list.constraints.pop()),
    ("constraints-reversed", |list| list.constraints.reverse()),
    ("bindings-dropped", |list| list.bindings.fill(FREE)),
    ("names-dropped", |list| list.names.clear()),
    ("default", |list| list.default = if list.default == kind::INT { kind::REAL } else { kind::INT }),
    ("exprs-reversed", |list| list.exprs.reverse()),
    ("fset-as-set", |list| {
        list.nodes.iter_mut().filter(|row| row.kind == kind::FSET).for_each(|row| row.kind = kind::SET);
    }),
];

fn rows(list: &mut Given, kind: u16, change: fn(&mut [u16; CONSTRAINT])) {
    list.constraints.iter_mut().filter(|row| row[0] == kind).for_each(change);
}
