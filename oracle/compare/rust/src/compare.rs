//! One list put to the crate and to the excerpt.

use julqetai::Choice;
use julqetai::ExprId;
use julqetai::NameTarget;
use julqetai::NewSorts;
use julqetai::Problem;
use julqetai::Refusal;
use julqetai::SortId;
use julqetai::Typing;
use julqetai::Workspace;
use lists::given::Counted;
use lists::given::Given;
use lists::given::Lent;
use lists::memory::Memory;
use lists::memory::Row;
use lists::memory::target;
use lists::read::Reader;
use lists::verdict::Shape;
use lists::verdict::Verdict;
use solve::expected::Expected;
use solve::expected::Outcome;

use crate::said;

/// Solves the problem and compares with what is expected of its list, which has `sorts` sorts.
pub fn same(workspace: &mut Workspace, problem: &Problem, sorts: usize, expected: &Expected) -> Result<(), String> {
    let solved = workspace.solve(problem);
    let code = solved.map_or_else(Refusal::code, |_| 0);
    if u16::from(code) != expected.code() {
        return Err(format!("the code is {code}, expected {}", expected.code()));
    }
    if let (Ok(typing), Outcome::Searched { verdict, .. }) = (&solved, &expected.outcome) {
        same_typing(typing, verdict, &expected.tally.choices_rising())?;
        same_new(typing.new_sorts(), sorts, &expected.outcome)?;
    }
    same_new(workspace.new_sorts(), sorts, &expected.outcome)
}

fn same_typing(typing: &Typing, verdict: &Verdict, choices: &[(u16, u16)]) -> Result<(), String> {
    let Verdict::Typing { sorts, names, measure } = verdict else { return Err("a typing, expected none".to_string()) };
    equal("sorts", &typing.sorts().collect::<Vec<_>>(), &sorts.iter().map(|&sort| SortId(sort)).collect())?;
    equal("names", &typing.names().collect::<Vec<_>>(), &names.iter().map(|&(kind, sort)| name(kind, sort)).collect())?;
    equal("measure", &typing.measure().to_vec(), &measure.iter().map(|&part| part.into()).collect())?;
    let choice = |&(expr, position): &(u16, u16)| Choice { expr: ExprId(expr), position: position.into() };
    equal("choices", &typing.choices().collect::<Vec<_>>(), &choices.iter().map(choice).collect())?;
    for expr in (0..=sorts.len() as u16).map(ExprId) {
        let at = |expr: ExprId| typing.sorts().zip(typing.names()).nth(expr.0.into()).unzip();
        equal(
            "sort and name of an expression",
            &(typing.sort(expr), Some(typing.name(expr))),
            &match at(expr) {
                (None, _) => (None, Some(None)),
                at => at,
            },
        )?;
    }
    Ok(())
}

fn name(kind: u16, sort: u16) -> Option<NameTarget> {
    (kind != target::NONE).then(|| said::name_target(kind, sort))
}

/// The sorts that were made. As their parts are given sorts or sorts made before, they are the same by structure if they
/// are the same by kind and parts, in the same order. After another end than that of the search there are none.
fn same_new(found: NewSorts, sorts: usize, expected: &Outcome) -> Result<(), String> {
    let expected: &[Shape] = match expected {
        Outcome::Searched { new, .. } => new,
        _ => &[],
    };
    equal("number of new sorts", &found.len(), &expected.len())?;
    for (((number, sort), shape), expected) in found.zip(expected).zip(sorts..) {
        equal("number of a new sort", &usize::from(number.0), &expected)?;
        let domain: Vec<SortId> = shape.arguments.iter().map(|&sort| SortId(sort)).collect();
        equal("new sort", &sort, &said::sort(Row::plain(shape.kind, shape.part), &domain))?;
    }
    Ok(())
}

fn equal<T: PartialEq + std::fmt::Debug>(what: &str, found: &T, expected: &T) -> Result<(), String> {
    match found == expected {
        true => Ok(()),
        false => Err(format!("{what}: {}, expected {}", short(found), short(expected))),
    }
}

/// So much of it as people read.
fn short<T: std::fmt::Debug>(value: &T) -> String {
    let mut text = format!("{value:?}");
    text.truncate(600);
    text
}

/// The sorts of a problem, read back by number, are those of its list.
pub fn same_given(problem: &Problem, list: &Given) -> Result<(), String> {
    equal("number of sorts", &problem.sort_count(), &list.sorts.len())?;
    for (number, row) in (0..).zip(&list.sorts) {
        let domain = list.entries.iter().skip(row.start.into()).take(row.count.into());
        let domain: Vec<SortId> = domain.map(|&sort| SortId(sort)).collect();
        equal("given sort", &problem.sort(SortId(number)), &Some(said::sort(*row, &domain)))?;
    }
    equal("sort past the list", &problem.sort(SortId(list.sorts.len() as u16)), &None)
}

/// The list that the text of a problem says, or why it says none.
pub fn read(problem: &Problem) -> Result<Given, String> {
    let mut reader = Reader::new();
    for line in problem.to_string().lines() {
        reader.read(line.as_bytes()).map_err(|bad| bad.to_string())?;
    }
    reader.list().cloned().ok_or_else(|| "no list".to_string())
}

/// The text of a problem says its list.
pub fn same_text(problem: &Problem, list: &Given) -> Result<(), String> {
    let mut read = read(problem)?;
    let memory = list.memory();
    if !is_list(&memory) {
        return Ok(()); // Above a ceiling: not all of it is in memory.
    }
    // What a row does not use is zero in a list that was read.
    let list = solve::text::given(&memory);
    read.title.clone_from(&list.title);
    equal("list by its text", &read, &list)
}

/// Whether all rows of a call are in what it is lent, so that it is a list.
pub fn is_list(memory: &Memory) -> bool {
    Counted::ALL.iter().all(|&(list, _)| {
        let (slice, at, row) = list.place();
        let words = match slice {
            Lent::Sorts => memory.sorts.len(),
            Lent::Nodes => memory.nodes.len(),
            Lent::Bindings => memory.bindings.len(),
            Lent::Exprs => memory.exprs.len(),
            Lent::Names => memory.names.len(),
            Lent::Constraints => memory.constraints.len(),
            Lent::Overloads => memory.overloads.len(),
            _ => memory.sources.len(),
        };
        let count = memory.count(list);
        let fits = count.checked_mul(row).is_some_and(|length| length <= words.saturating_sub(at));
        fits && list.ceiling().is_none_or(|ceiling| count <= ceiling)
    })
}
