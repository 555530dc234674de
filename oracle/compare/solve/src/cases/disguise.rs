//! Writes a list in another way: expressions and variables in another order, runs that are shared, overlap and have
//! strays between them. The search goes the same way, but where runs are set anew on purpose.

use common::draft::run;
use lists::given::Given;
use lists::memory::*;
use lists::rng::Rng;

/// Expressions and variables in another order.
pub fn reorder(rng: &mut Rng, list: &mut Given) {
    if rng.chance(50) {
        reorder_expressions(rng, list);
    }
    if rng.chance(30) {
        reorder_variables(rng, list);
    }
}

/// Runs at other places, or other runs.
pub fn repack(rng: &mut Rng, list: &mut Given) {
    if rng.chance(30) {
        repack_arguments(rng, &mut list.sorts, &mut list.entries);
    }
    if rng.chance(30) {
        repack_arguments(rng, &mut list.nodes, &mut list.node_entries);
    }
    if rng.chance(30) {
        repack_sources(rng, list);
    }
    if rng.chance(12) {
        set_runs(rng, list);
    }
}

/// Numbers in a random order.
fn order(rng: &mut Rng, count: usize) -> Vec<u16> {
    let mut order: Vec<u16> = (0..count as u16).collect();
    for last in (1..count).rev() {
        order.swap(last, rng.below(last + 1));
    }
    order
}

/// The rows, each at its new place.
fn reordered(rows: &[u16], order: &[u16]) -> Vec<u16> {
    let mut new = rows.to_vec();
    for (row, place) in rows.iter().zip(order) {
        new[usize::from(*place)] = *row;
    }
    new
}

fn reorder_expressions(rng: &mut Rng, list: &mut Given) {
    let order = order(rng, list.exprs.len());
    list.exprs = reordered(&list.exprs, &order);
    let renumber = |expression: &mut u16| {
        if let Some(new) = order.get(usize::from(*expression)) {
            *expression = *new;
        }
    };
    list.names.iter_mut().for_each(|name| renumber(&mut name[0]));
    let disjunctions = list.constraints.iter_mut().filter(|row| row[0] == constraint::DISJUNCTION);
    disjunctions.for_each(|row| renumber(&mut row[1]));
}

fn reorder_variables(rng: &mut Rng, list: &mut Given) {
    let order = order(rng, list.bindings.len());
    list.bindings = reordered(&list.bindings, &order);
    for row in list.nodes.iter_mut().filter(|row| row.kind == kind::VARIABLE) {
        row.part = order[usize::from(row.part)];
    }
}

fn repack_arguments(rng: &mut Rng, rows: &mut [Row], entries: &mut Vec<u16>) {
    let old = std::mem::take(entries);
    for row in rows.iter_mut().filter(|row| row.kind == kind::FUNCTION) {
        let arguments = &old[usize::from(row.start)..][..usize::from(row.count)];
        row.start = run(rng, entries, arguments);
    }
}

fn repack_sources(rng: &mut Rng, list: &mut Given) {
    let old = std::mem::take(&mut list.sources);
    for row in list.constraints.iter_mut().filter(|row| row[0] == constraint::JOIN) {
        let sources = &old[usize::from(row[2])..][..usize::from(row[3])];
        row[2] = run(rng, &mut list.sources, sources);
    }
}

/// Gives some disjunctions and Joins any short run of their list that has no strays.
fn set_runs(rng: &mut Rng, list: &mut Given) {
    for row in &mut list.constraints {
        let (length, least, at) = match row[0] {
            constraint::DISJUNCTION => (list.overloads.len(), 0, 3),
            constraint::JOIN => (list.sources.len(), 1, 2),
            _ => continue,
        };
        if length <= least || rng.chance(50) {
            continue;
        }
        let start = rng.below(length + 1 - least);
        let count = rng.between(least, (length - start).min(4));
        let fine = match row[0] {
            constraint::DISJUNCTION => list.overloads[start..][..count].iter().all(|overload| overload[0] <= 3),
            _ => list.sources[start..][..count].iter().all(|&source| source != FREE),
        };
        if fine {
            row[at..at + 2].copy_from_slice(&[start as u16, count as u16]);
        }
    }
}
