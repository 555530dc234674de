//! Writes a list in the text format, so that reading it gives the same list.

use std::fmt::Write;

use crate::given::Counted;
use crate::given::Given;
use crate::given::Lent;
use crate::memory::*;
use crate::question::Question;
use crate::read::CONTAINERS;
use crate::read::FIXED_SORTS;
use crate::verdict::Shape;

/// Words on one line of a long run.
const PER_LINE: usize = 16;

/// Equal rows in a row, from which on a `pad` line says them.
const WORTH_PADDING: usize = 4;

pub fn sort_word(sort: u16) -> String {
    match FIXED_SORTS.get(usize::from(sort)) {
        Some(name) => name.to_string(),
        None => format!("s{sort}"),
    }
}

pub fn place_word(word: u16) -> String {
    match Place::of(word) {
        Place::Sort(sort) => sort_word(sort),
        Place::Node(node) => format!("n{node}"),
    }
}

fn words(words: &[u16], name: fn(u16) -> String) -> String {
    words.iter().map(|&word| name(word)).collect::<Vec<_>>().join(" ")
}

/// The words of a function, after `fn`.
fn function_words(arguments: &[u16], range: u16, name: fn(u16) -> String) -> String {
    let gap = if arguments.is_empty() { "" } else { " " };
    format!("fn {}{gap}-> {}", words(arguments, name), name(range))
}

/// A sort that a call made, in the words of a `sort` line.
pub fn shape_words(sort: &Shape) -> String {
    match sort.kind {
        kind::FUNCTION => function_words(&sort.arguments, sort.part, sort_word),
        kind::LIST..=kind::FBAG => format!("{} {}", container_word(sort.kind), sort_word(sort.part)),
        kind => panic!("no call makes a sort of kind {kind}"),
    }
}

fn container_word(container: u16) -> &'static str {
    CONTAINERS[usize::from(container - kind::LIST)]
}

pub fn question_line(question: Question) -> String {
    let (name, lhs, rhs) = match question {
        Question::Solve => return "? solve".to_string(),
        Question::Unify(lhs, rhs) => return format!("? unify {} {}", place_word(lhs), place_word(rhs)),
        Question::PartialCmp(lhs, rhs) => ("partial_cmp", lhs, rhs),
        Question::Join(lhs, rhs) => ("join", lhs, rhs),
        Question::Meet(lhs, rhs) => ("meet", lhs, rhs),
        Question::WideningDistance(lhs, rhs) => ("widening_distance", lhs, rhs),
        Question::IsMaterializable(lhs, rhs) => ("is_materializable", lhs, rhs),
    };
    format!("? {name} {} {}", sort_word(lhs), sort_word(rhs))
}

/// The lines of a list.
pub fn list_text(list: &Given) -> String {
    let mut text = String::new();
    line(&mut text, format!("list {}", list.title).trim_end());
    write_sorts(&mut text, list);
    write_nodes(&mut text, list);
    write_expressions(&mut text, list);
    match runs_in_order(list) {
        true => write_constraints(&mut text, list),
        false => write_raw_constraints(&mut text, list),
    }
    write_rest(&mut text, list);
    text
}

fn line(text: &mut String, line: &str) {
    writeln!(text, "{line}").expect("a string takes every line");
}

/// How many rows from `index` on are those that `pad` would append.
fn padding<T: PartialEq>(rows: &[T], index: usize, pad: impl Fn(usize) -> T) -> usize {
    let mut end = index;
    while end < rows.len() && rows[end] == pad(end) {
        end += 1;
    }
    if end - index >= WORTH_PADDING { end - index } else { 0 }
}

fn write_sorts(text: &mut String, list: &Given) {
    let fixed = (kind::UNIT..=kind::REAL).map(|kind| Row::plain(kind, 0));
    let mut number = FIXED_SORTS.len();
    if !list.sorts.iter().copied().take(number).eq(fixed) {
        line(text, "bare");
        number = 0;
    }
    let mut entries = Entries { words: &list.entries, written: 0, keyword: "entries" };
    while number < list.sorts.len() {
        let padded = padding(&list.sorts, number, |number| Row::plain(kind::DEF, number as u16));
        if padded > 0 {
            line(text, &format!("pad sorts {padded}"));
            number += padded;
            continue;
        }
        let row = list.sorts[number];
        let body = sort_words(row).or_else(|| entries.function(text, row, sort_word));
        line(text, &format!("sort s{number} {}", body.unwrap_or_else(|| raw_words(row))));
        number += 1;
    }
    entries.write_to(text, list.entries.len());
}

/// The words of a sort that is no function, unless its row has words that a line cannot say.
fn sort_words(row: Row) -> Option<String> {
    match row.kind {
        _ if row != Row::plain(row.kind, row.part) => None,
        kind::UNIT..=kind::REAL => (row.part == 0).then(|| sort_word(row.kind)),
        kind::LIST..=kind::FBAG => Some(format!("{} {}", container_word(row.kind), sort_word(row.part))),
        kind::DEF => Some(format!("Def {}", row.part)),
        kind::TYPE_VAR => Some(format!("TypeVar {}", row.part)),
        _ => None,
    }
}

/// The words of a node that is no function, unless its row has words that a line cannot say.
fn node_words(row: Row) -> Option<String> {
    match row.kind {
        _ if row != Row::plain(row.kind, row.part) => None,
        kind::LIST..=kind::FBAG => Some(format!("{} {}", container_word(row.kind), place_word(row.part))),
        kind::VARIABLE => Some(format!("var v{}", row.part)),
        _ => None,
    }
}

fn write_nodes(text: &mut String, list: &Given) {
    let mut entries = Entries { words: &list.node_entries, written: 0, keyword: "node-entries" };
    let mut variables = 0;
    let mut number = 0;
    while number < list.nodes.len() {
        let padded = padding(&list.nodes, number, |_| Row::plain(kind::LIST, kind::BOOL));
        if padded > 0 {
            line(text, &format!("pad nodes {padded}"));
            number += padded;
            continue;
        }
        let row = list.nodes[number];
        if row == Row::plain(kind::VARIABLE, variables) && usize::from(variables) < list.bindings.len() {
            line(text, &format!("var v{variables} n{number}"));
            variables += 1;
            number += 1;
            continue;
        }
        let body = node_words(row).or_else(|| entries.function(text, row, place_word));
        line(text, &format!("node n{number} {}", body.unwrap_or_else(|| raw_words(row))));
        number += 1;
    }
    entries.write_to(text, list.node_entries.len());
    let more = list.bindings.len() - usize::from(variables);
    if more > 0 {
        line(text, &format!("vars {more}"));
    }
    for (variable, &word) in list.bindings.iter().enumerate().filter(|&(_, &word)| word != FREE) {
        line(text, &format!("bind v{variable} {}", place_word(word)));
    }
}

/// The entries of a list, written as the functions that use them come.
struct Entries<'a> {
    words: &'a [u16],
    written: usize,
    keyword: &'static str,
}

impl Entries<'_> {
    /// The words of a function whose run can follow the entries written so far.
    fn function(&mut self, text: &mut String, row: Row, name: fn(u16) -> String) -> Option<String> {
        let (start, count) = (usize::from(row.start), usize::from(row.count));
        if row.kind != kind::FUNCTION
            || start < self.written
            || start + count > self.words.len()
            || count > MAX_ARGUMENTS
        {
            return None;
        }
        self.write_to(text, start);
        self.written = start + count;
        Some(function_words(&self.words[start..self.written], row.part, name))
    }

    /// Writes the entries before `end` that no function has written.
    fn write_to(&mut self, text: &mut String, end: usize) {
        while self.written < end {
            let rest = &self.words[self.written..end];
            let padded = padding(rest, 0, |_| 0);
            let taken = if padded > 0 { padded } else { rest.len().min(PER_LINE) };
            match padded {
                0 => line(text, &format!("{} {}", self.keyword, words(&rest[..taken], |word| word.to_string()))),
                _ => line(text, &format!("pad {} {padded}", self.keyword)),
            }
            self.written += taken;
        }
    }
}

fn raw_words(row: Row) -> String {
    format!("raw {} {} {} {}", row.kind, row.part, row.start, row.count)
}

fn target_words(kind: u16, sort: u16) -> String {
    match (kind, sort) {
        (target::VARIABLE, 0) => "variable".to_string(),
        (target::OP, _) => format!("op {}", sort_word(sort)),
        (target::BUILTIN, 0) => "builtin".to_string(),
        _ => format!("raw {kind} {sort}"),
    }
}

fn write_expressions(text: &mut String, list: &Given) {
    for (number, &word) in list.exprs.iter().enumerate() {
        line(text, &format!("expr e{number} {}", place_word(word)));
    }
    for &[expression, kind, sort] in &list.names {
        line(text, &format!("name e{expression} {}", target_words(kind, sort)));
    }
}

/// Whether the runs of disjunctions and Joins follow each other and leave no row over.
fn runs_in_order(list: &Given) -> bool {
    let (mut overloads, mut sources) = (0, 0);
    for row in &list.constraints {
        let (next, start, count, length) = match *row {
            [constraint::DISJUNCTION, _, _, start, count] => (&mut overloads, start, count, list.overloads.len()),
            [constraint::JOIN, _, start, count, 0] => (&mut sources, start, count, list.sources.len()),
            [constraint::JOIN, ..] => return false,
            _ => continue,
        };
        if usize::from(start) != *next || *next + usize::from(count) > length {
            return false;
        }
        *next += usize::from(count);
    }
    overloads == list.overloads.len() && sources == list.sources.len()
}

fn write_constraints(text: &mut String, list: &Given) {
    for row in &list.constraints {
        match *row {
            [constraint::DISJUNCTION, expression, place, start, count] => {
                line(text, &format!("disjunction e{expression} {}", place_word(place)));
                for overload in &list.overloads[usize::from(start)..][..usize::from(count)] {
                    line(text, &format!("  {}", overload_words(overload)));
                }
            }
            [constraint::JOIN, target, start, count, _] => {
                let run = &list.sources[usize::from(start)..][..usize::from(count)];
                let (first, rest) = run.split_at(run.len().min(PER_LINE));
                line(text, format!("join {} {}", place_word(target), words(first, place_word)).trim_end());
                write_sources(text, rest);
            }
            _ => line(text, &constraint_words(row)),
        }
    }
}

fn write_sources(text: &mut String, sources: &[u16]) {
    for run in sources.chunks(PER_LINE) {
        line(text, &format!("sources {}", words(run, place_word)));
    }
}

/// The list's overloads and sources first, where no constraint takes them, then its constraints.
fn write_raw_constraints(text: &mut String, list: &Given) {
    for overload in &list.overloads {
        line(text, &overload_words(overload));
    }
    write_sources(text, &list.sources);
    for row in &list.constraints {
        match row[0] {
            constraint::DISJUNCTION | constraint::JOIN => line(text, &raw_constraint(row)),
            _ => line(text, &constraint_words(row)),
        }
    }
}

fn raw_constraint(row: &[u16; CONSTRAINT]) -> String {
    format!("constraint {}", words(row, |word| word.to_string()))
}

/// A constraint without a run.
fn constraint_words(row: &[u16; CONSTRAINT]) -> String {
    let [_, a, b, c, _] = *row;
    match *row {
        [constraint::SUB, _, _, 0, 0] => format!("sub {} {}", place_word(a), place_word(b)),
        [constraint::LIT, _, literal::POSITIVE, 0, 0] => format!("lit {} positive", place_word(a)),
        [constraint::LIT, _, literal::NATURAL, 0, 0] => format!("lit {} natural", place_word(a)),
        [constraint::COMPREHENSION, _, _, _, 0] => {
            format!("comprehension {} {} {}", place_word(a), place_word(b), sort_word(c))
        }
        _ => raw_constraint(row),
    }
}

fn overload_words(&[kind, sort, place]: &[u16; OVERLOAD]) -> String {
    match target_words(kind, sort) {
        raw if raw.starts_with("raw") => format!("overload {raw} {place}"),
        target => format!("overload {target} {}", place_word(place)),
    }
}

fn write_rest(text: &mut String, list: &Given) {
    if list.default != kind::BOOL {
        line(text, &format!("default {}", sort_word(list.default)));
    }
    let ceilings = list.ceilings;
    if ceilings != Ceilings::default() {
        let Ceilings { sorts, entries, nodes, node_entries } = ceilings;
        line(text, &format!("ceilings {sorts} {entries} {nodes} {node_entries}"));
    }
    for (what, name) in Counted::ALL {
        if let Some(count) = list.said_count(what) {
            line(text, &format!("count {name} {count}"));
        }
    }
    for (what, name) in Lent::ALL {
        if let Some(length) = list.said_lend(what) {
            line(text, &format!("lend {name} {length}"));
        }
    }
}
