//! A list in memory, in the words of docs/FORMAT.md.

use lists::given::Counted;
use lists::given::Given;
use lists::memory::*;
use lists::write::list_text;

use crate::call::Call;
use crate::call::Slice;
use crate::layout::used;

/// The lines of the list of a call. Words that it does not use are zero in them; of a list whose counts say more than
/// is lent, only what is lent.
pub fn call_text(call: &Call) -> String {
    let list = given(&call.memory);
    let lengths = Slice::ALL.map(|(slice, name)| format!("{name} {}", call.length(slice)));
    let counts = Counted::ALL.map(|(list, name)| format!("{name} {}", call.memory.count(list)));
    format!("# counts: {}\n# words lent: {}\n{}", counts.join(", "), lengths.join(", "), list_text(&list))
}

/// The rows of a list in memory.
pub fn given(memory: &Memory) -> Given {
    let mut list = Given::new("");
    list.sorts = rows(&memory.sorts, memory.sort_count, ENTRIES_AT);
    list.entries = first(&memory.sorts, ENTRIES_AT, memory.entry_count).to_vec();
    list.nodes = rows(&memory.nodes, memory.node_count, NODE_ENTRIES_AT);
    list.node_entries = first(&memory.nodes, NODE_ENTRIES_AT, memory.node_entry_count).to_vec();
    list.bindings = first(&memory.bindings, 0, memory.variable_count).to_vec();
    list.exprs = first(&memory.exprs, 0, memory.expr_count).to_vec();
    list.sources = first(&memory.sources, 0, memory.source_count).to_vec();
    list.default = memory.default;
    let words = |words: &'_ [u16], count: usize, row: usize| {
        first(words, 0, count.saturating_mul(row)).chunks_exact(row).map(<[u16]>::to_vec).collect::<Vec<_>>()
    };
    for row in words(&memory.names, memory.name_count, NAME) {
        list.names.push([row[0], row[1], sort_of(row[1], row[2])]);
    }
    for row in words(&memory.overloads, memory.overload_count, OVERLOAD) {
        list.overloads.push([row[0], sort_of(row[0], row[1]), row[2]]);
    }
    for row in words(&memory.constraints, memory.constraint_count, CONSTRAINT) {
        let mut constraint = [0; CONSTRAINT];
        let used = used(row[0]);
        constraint[..used].copy_from_slice(&row[..used]);
        list.constraints.push(constraint);
    }
    list
}

/// The sort of a name, which only an operation has.
fn sort_of(kind: u16, sort: u16) -> u16 {
    if kind == target::OP { sort } else { 0 }
}

/// The first `count` words from a place on, or as many as there are.
fn first(words: &[u16], at: usize, count: usize) -> &[u16] {
    let rest = words.get(at..).unwrap_or_default();
    &rest[..count.min(rest.len())]
}

fn rows(words: &[u16], count: usize, end: usize) -> Vec<Row> {
    let words = first(&words[..end.min(words.len())], 0, count.saturating_mul(ROW));
    words
        .chunks_exact(ROW)
        .map(|words| {
            let row = Row::of(words);
            match row.kind {
                kind::UNIT..=kind::REAL => Row::plain(row.kind, 0),
                kind::FUNCTION => row,
                _ => Row::plain(row.kind, row.part),
            }
        })
        .collect()
}

#[cfg(test)]
mod tests {
    use lists::read::Reader;

    use super::*;
    use crate::cases::Cases;
    use crate::cases::Class;
    use crate::expected::Expected;

    /// What is printed of a list that differs is the list: read again, it has the same answer.
    #[test]
    fn the_text_of_a_list_says_it() {
        for (class, _) in Class::ALL.into_iter().filter(|(class, _)| !matches!(class, Class::Damaged | Class::Words)) {
            let cases = Cases::new(class, 6);
            let heavy = matches!(class, Class::Full | Class::Large | Class::Deep | Class::Clash | Class::Again);
            for index in 0..if heavy { 20 } else { 300 } {
                let call = cases.case(index).expect("there are so many").call;
                let expected = Expected::of(&call.memory).expect("the judges agree");
                if matches!(expected.code(), 1 | 14) {
                    continue; // By what is lent.
                }
                let mut reader = Reader::new();
                for line in call_text(&call).lines() {
                    reader.read(line.as_bytes()).unwrap_or_else(|bad| panic!("{bad}"));
                }
                let memory = reader.list().expect("there is a list").memory();
                let read = Expected::of(&memory).expect("the judges agree");
                assert_eq!(read.outcome, expected.outcome, "class {} number {index}", class.name());
            }
        }
    }
}
