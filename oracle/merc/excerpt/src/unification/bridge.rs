//! Puts nodes and bindings into a [Unifier] and reads bindings out of it.

use ena::unify::UnifyKey;
use lists::memory::FREE;
use lists::memory::Memory;
use lists::memory::Place;
use lists::memory::kind;
use lists::verdict::End;

use super::InferSort;
use super::InferSortId;
use super::SortVar;
use super::SortVarValue;
use super::Unifier;
use crate::resolved_sort::bridge::container;
use crate::resolved_sort::bridge::number;
use crate::resolved_sort::bridge::sort_id;

/// The arena holds a Resolved node for each sort of the list, then the nodes of the list.
pub(crate) fn node_id(memory: &Memory, word: u16) -> InferSortId {
    match Place::of(word) {
        Place::Sort(sort) => InferSortId::new(usize::from(sort)),
        Place::Node(node) => InferSortId::new(memory.sort_count + usize::from(node)),
    }
}

/// The unifier of an accepted list.
pub(crate) fn load(memory: &Memory) -> Unifier {
    let mut unifier = Unifier::new();
    for sort in 0..memory.sort_count {
        unifier.resolved_node(sort_id(sort as u16));
    }
    for _ in 0..memory.variable_count {
        unifier.table.new_key(SortVarValue(None));
    }
    for node in 0..memory.node_count {
        let sort = infer_sort(memory, node);
        unifier.push(sort);
    }
    for (variable, &word) in memory.bindings[..memory.variable_count].iter().enumerate() {
        if word != FREE {
            bind(&mut unifier, variable, node_id(memory, word));
        }
    }
    unifier
}

fn infer_sort(memory: &Memory, node: usize) -> InferSort {
    let row = memory.node(node);
    let part = |word: u16| node_id(memory, word);
    match row.kind {
        kind::VARIABLE => InferSort::Var(SortVar(u32::from(row.part))),
        kind::FUNCTION => InferSort::Function {
            domain: memory.node_arguments(row).iter().map(|&argument| part(argument)).collect(),
            range: part(row.part),
        },
        _ => InferSort::Generic { op: container(row.kind), subsort: part(row.part) },
    }
}

/// A variable bound to another one's node is merged with it, as `unify` would do.
fn bind(unifier: &mut Unifier, variable: usize, id: InferSortId) {
    let variable = SortVar(variable as u32);
    match unifier.arena[id] {
        InferSort::Var(other) => unifier.table.union(variable, other),
        _ => unifier.table.union_value(variable, SortVarValue(Some(id))),
    }
}

/// What each variable stands for. ena does not say which of two merged variables was bound to the
/// other, so a free one is named by the lowest variable that is one with it.
pub(crate) fn ends(unifier: &mut Unifier, memory: &Memory) -> Vec<End> {
    let variables = memory.variable_count as u32;
    let roots: Vec<u32> = (0..variables).map(|variable| unifier.table.find(SortVar(variable)).index()).collect();
    let lowest = |root: u32| roots.iter().position(|&other| other == root).expect("a root is a variable");
    (0..variables)
        .map(|variable| {
            let Some(id) = unifier.table.probe_value(SortVar(variable)).0 else {
                return End::Free(lowest(roots[variable as usize]) as u16);
            };
            let id = unifier.shallow_normalize(id);
            match unifier.arena[id] {
                InferSort::Var(free) => End::Free(lowest(roots[free.0 as usize]) as u16),
                InferSort::Resolved(sort) => End::Place(number(sort)),
                _ => End::Place(Place::Node((*id - memory.sort_count) as u16).word()),
            }
        })
        .collect()
}
