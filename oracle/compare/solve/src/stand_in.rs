//! A stand-in for the port's library where it is not there, and its wrong variants. The checks are those of `lists`,
//! the search is that of `search.rs`; what is left in memory is done here, in place.

use common::guard::GUARD;
use common::guard::between_guards;
use lists::checks;
use lists::memory::*;
use lists::question::Question;

use crate::call::Lent;
use crate::call::Slice;
use crate::fault::Fault;
use crate::search::Candidate;
use crate::search::Search;
use crate::search::Stop;

/// The slices that a call may write.
struct Written<'a> {
    sorts: &'a mut [u16],
    nodes: &'a mut [u16],
    bindings: &'a mut [u16],
    scratch: &'a mut [u16],
    index: &'a mut [u16],
    typing: &'a mut [u16],
    measure: &'a mut [u16],
    choices: &'a mut [u16],
}

/// Asks the stand-in, or the variant that has a fault. The lists are read from `memory`, which holds the same words.
pub fn ask(fault: Option<Fault>, lent: &mut Lent, memory: &Memory) -> u64 {
    let [sorts, nodes, bindings, _, _, _, _, _, scratch, index, typing, measure, choices] = &mut lent.slices;
    let mut written = Written {
        sorts: between_guards(sorts),
        nodes: between_guards(nodes),
        bindings: between_guards(bindings),
        scratch: between_guards(scratch),
        index: between_guards(index),
        typing: between_guards(typing),
        measure: between_guards(measure),
        choices: between_guards(choices),
    };
    let misread = fault.and_then(|fault| misread(fault, memory));
    let answer = answer(fault, misread.as_ref().unwrap_or(memory), &mut written);
    let refused = (1..256).contains(&answer) && answer != 15 && answer != 16;
    match fault {
        Some(Fault::Changed(slice)) if !refused => change_last(lent.words_mut(slice)),
        Some(Fault::ChangedAfterRefusal(slice)) if refused => change_last(lent.words_mut(slice)),
        Some(Fault::Before(slice)) => lent.slices[slice as usize][GUARD - 1] ^= 1,
        Some(Fault::After(slice)) => {
            let buffer = &mut lent.slices[slice as usize];
            let end = buffer.len() - GUARD;
            buffer[end] ^= 1;
        }
        _ => {}
    }
    answer
}

/// The lists as an entry over records reads them that takes the wrong words for a record.
fn misread(fault: Fault, memory: &Memory) -> Option<Memory> {
    let mut read = memory.clone();
    match fault {
        Fault::RecordSortFirst => read.overloads.chunks_exact_mut(OVERLOAD).for_each(|row| row.swap(0, 1)),
        Fault::RecordsTo1023 => read.overloads.iter_mut().skip(OVERLOAD * 1_023).for_each(|word| *word = 0),
        Fault::RecordsByWord => read.overloads.resize(OVERLOAD * memory.overloads.len(), 0),
        _ => return None,
    }
    Some(read)
}

fn change_last(words: &mut [u16]) {
    if let Some(word) = words.last_mut() {
        *word ^= 1;
    }
}

/// No answer of the port: a wrong variant goes round in circles.
const ENDLESS: u64 = u64::MAX;

fn answer(fault: Option<Fault>, memory: &Memory, written: &mut Written) -> u64 {
    let has = |other: Fault| fault == Some(other);
    match refusal(fault, memory) {
        Refusal::Code(code) => {
            if has(Fault::IndexClearedByRefusal) {
                written.index.fill(0);
            }
            return code.into();
        }
        Refusal::Taken => return packed(17, memory.sort_count, memory.entry_count),
        Refusal::Accepted => {}
    }
    let last_of_index = written.index[written.index.len() - 1];
    let mut search = Search::new(fault, memory, written.sorts, written.nodes, written.bindings, written.index);
    let stopped = search.run().err();
    let (rows, entries) = (search.sorts.rows, search.sorts.entries);
    let nodes_made = search.tally.nodes_made > 0;
    let (best, first_binding) = (search.best.take(), search.first_binding);
    match first_binding {
        Some((variable, place)) if has(Fault::BindingLeft) => written.bindings[usize::from(variable)] = place,
        _ if has(Fault::BindingsFreed) => written.bindings[..memory.variable_count].fill(FREE),
        _ => {}
    }
    if has(Fault::OutputsBeforeRoom)
        && let (Some(_), Some(best)) = (stopped, &best)
    {
        hand_out(fault, memory, written, best);
    }
    let code = match (stopped, &best) {
        (Some(Stop::Endless), _) => return ENDLESS,
        (Some(_), Some(_)) if has(Fault::IncumbentSaves) => 0,
        (Some(Stop::Nodes), _) if !has(Fault::AlwaysSorts) => 16,
        (Some(_), _) => 15,
        _ if has(Fault::AlwaysNoTyping) => 17,
        (None, None) => 17,
        (None, Some(best)) if best.duplicate => 18,
        (None, Some(_)) => 0,
    };
    leave_sorts(fault, code, memory, written, rows, entries);
    leave_nodes(fault, code, memory, written, nodes_made);
    leave_scratch(fault, code, written);
    leave_index(fault, code, written, last_of_index);
    let entries = if has(Fault::EntriesNotCounted) { memory.entry_count } else { entries };
    match (code, best) {
        (0, Some(best)) => {
            hand_out(fault, memory, written, &best);
            let components = if has(Fault::ComponentsNotCounted) { 0 } else { best.measure.len() as u64 };
            let choices = if has(Fault::ChoicesNotCounted) { 0 } else { best.choices.len() as u64 };
            packed(0, rows, entries) | components << 40 | choices << 52
        }
        (18, Some(best)) => {
            if has(Fault::OutputsUnder18) {
                hand_out(fault, memory, written, &best);
            }
            packed(18, rows, entries)
        }
        (17, _) if has(Fault::CountsMissing) => 17,
        (17 | 18, _) => packed(code, rows, entries),
        (code, _) if has(Fault::CountsAfterRoom) => packed(code, memory.sort_count, memory.entry_count),
        (code, _) => code.into(),
    }
}

fn packed(code: u16, rows: usize, entries: usize) -> u64 {
    u64::from(code) | (rows as u64) << 8 | (entries as u64) << 24
}

/// Zeros from a row on and from an entry on, to the end.
fn clear(words: &mut [u16], rows: usize, entries_at: usize, entries: usize) {
    words[ROW * rows..entries_at].fill(0);
    words[entries_at + entries..].fill(0);
}

fn leave_sorts(fault: Option<Fault>, code: u16, memory: &Memory, written: &mut Written, rows: usize, entries: usize) {
    let sorts = &mut written.sorts[..];
    let (given_rows, given_entries) = (memory.sort_count, memory.entry_count);
    let last = sorts[sorts.len() - 1];
    let ceiling = SORT_STORAGE.min(sorts.len());
    match (fault, code) {
        (Some(Fault::SortsLeftAfter15), 15) | (Some(Fault::SortsLeftAfter16), 16) => {}
        (Some(Fault::SortRowsNotCleared), 15 | 16) => clear(sorts, rows, ENTRIES_AT, entries),
        (Some(Fault::SortEntriesNotCleared), 15 | 16) => sorts[ROW * given_rows..ENTRIES_AT].fill(0),
        (Some(Fault::SortsToCeiling), 15 | 16) => clear(&mut sorts[..ceiling], given_rows, ENTRIES_AT, given_entries),
        (Some(Fault::SortsOneWordFew), 15 | 16) => {
            clear(sorts, given_rows, ENTRIES_AT, given_entries);
            sorts[sorts.len() - 1] = last;
        }
        (Some(Fault::SortsGivenBackAfter17), 17) | (Some(Fault::SortsGivenBackAfter18), 18) => {
            sorts[ROW * given_rows..ROW * rows].fill(0);
        }
        (Some(Fault::RowsPastKeptCleared), 0) => clear(sorts, rows, ENTRIES_AT, entries),
        (_, 15 | 16) => clear(sorts, given_rows, ENTRIES_AT, given_entries),
        _ => {}
    }
}

fn leave_nodes(fault: Option<Fault>, code: u16, memory: &Memory, written: &mut Written, made: bool) {
    let nodes = &mut written.nodes[..];
    let (rows, entries) = (memory.node_count, memory.node_entry_count);
    let last = nodes[nodes.len() - 1];
    match fault {
        Some(Fault::NodesLeftAfter17) if code == 17 => {}
        Some(Fault::NodesLeftAfterRoom) if matches!(code, 15 | 16) => {}
        Some(Fault::NodesLeftWhereNoneMade) if !made => {}
        Some(Fault::NodeEntriesLeft) => nodes[ROW * rows..NODE_ENTRIES_AT].fill(0),
        Some(Fault::NodesToCeiling) => clear(&mut nodes[..NODE_STORAGE], rows, NODE_ENTRIES_AT, entries),
        _ => clear(nodes, rows, NODE_ENTRIES_AT, entries),
    }
    if fault == Some(Fault::NodesOneWordFew) {
        nodes[nodes.len() - 1] = last;
    }
}

fn leave_scratch(fault: Option<Fault>, code: u16, written: &mut Written) {
    let scratch = &mut written.scratch[..];
    let words = match fault {
        Some(Fault::ScratchLeftAfter17) if code == 17 => 0,
        Some(Fault::ScratchLeftAfterRoom) if matches!(code, 15 | 16) => 0,
        Some(Fault::ScratchOneWordFew) => scratch.len() - 1,
        Some(Fault::ScratchToCeiling) => SCRATCH,
        _ => scratch.len(),
    };
    scratch[..words].fill(0);
}

fn leave_index(fault: Option<Fault>, code: u16, written: &mut Written, last: u16) {
    let index = &mut written.index[..];
    let words = match fault {
        Some(Fault::IndexLeft) => 0,
        Some(Fault::IndexLeftAfter17) if code == 17 => 0,
        Some(Fault::IndexLeftAfterRoom) if matches!(code, 15 | 16) => 0,
        Some(Fault::IndexToCeiling) => INDEX,
        _ => index.len(),
    };
    index[..words].fill(0);
    if fault == Some(Fault::IndexOneWordFew) {
        index[index.len() - 1] = last;
    }
}

/// Writes the outputs of a typing.
fn hand_out(fault: Option<Fault>, memory: &Memory, written: &mut Written, best: &Candidate) {
    let has = |other: Fault| fault == Some(other);
    if has(Fault::OutputsUntouched) {
        return;
    }
    for (expression, &sort) in best.sorts.iter().enumerate() {
        let row = &mut written.typing[3 * expression..][..3];
        row[0] = if has(Fault::BoolForAll) { kind::BOOL } else { sort };
        match name(fault, memory, &best.choices, expression as u16) {
            Some((kind, sort)) if has(Fault::NameSortCopied) => row[1..].copy_from_slice(&[kind, sort]),
            Some((target::OP, sort)) => row[1..].copy_from_slice(&[target::OP, sort]),
            Some((kind, _)) => row[1..].copy_from_slice(&[kind, 0]),
            None if has(Fault::NoneNotWritten) => {}
            None => row[1..].fill(target::NONE),
        }
    }
    if has(Fault::MeasureToEnd) {
        written.measure.fill(0);
    }
    written.measure[..best.measure.len()].copy_from_slice(&best.measure);
    let mut choices = best.choices.clone();
    if has(Fault::SlotsFromZero) {
        choices = best.choices.windows(2).map(|two| (two[1].0, two[0].1)).collect();
    }
    if !has(Fault::ChoicesByConstraint) {
        choices.sort_unstable();
    }
    if has(Fault::FirstChoiceMissing) {
        choices.retain(|&(expression, _)| expression != 0);
    }
    if has(Fault::LastChoiceTwice) {
        choices.extend(choices.last().copied());
    }
    for ((expression, position), row) in choices.into_iter().zip(written.choices.chunks_exact_mut(2)) {
        row.copy_from_slice(&[expression, position]);
    }
}

/// The kind and sort of an expression's name: that of its choice, else its base name.
fn name(fault: Option<Fault>, memory: &Memory, choices: &[(u16, u16)], expression: u16) -> Option<(u16, u16)> {
    let names = match fault {
        Some(Fault::NamesPastCount) => memory.names.len() / NAME,
        _ => memory.name_count,
    };
    let base = (0..names).map(|index| memory.name(index)).rfind(|name| name[0] == expression);
    let base = base.map(|name| (name[1], name[2]));
    let chosen = choices.iter().find(|choice| choice.0 == expression).and_then(|&(_, position)| {
        let mut rows = memory.constraints();
        let row = rows.find(|row| row[0] == constraint::DISJUNCTION && row[1] == expression)?;
        let start = if fault == Some(Fault::PositionInList) { 0 } else { row[3] };
        let overload = memory.overload(usize::from(start + position));
        Some((overload[0], overload[1]))
    });
    match fault {
        Some(Fault::BaseNameWins) => base.or(chosen),
        _ => chosen.or(base),
    }
}

// Refusals.

enum Refusal {
    Accepted,
    Code(u16),
    /// What should be refused is taken; what is answered then does not matter.
    Taken,
}

fn refusal(fault: Option<Fault>, memory: &Memory) -> Refusal {
    let code = checks::first_failing(memory, Question::Solve);
    let wrongly = match fault {
        None => None,
        Some(fault) => wrong_refusal(fault, memory, code),
    };
    wrongly.unwrap_or(match code {
        None => Refusal::Accepted,
        Some(code) => Refusal::Code(code),
    })
}

/// What a wrong check says, where it is not what the right one says.
fn wrong_refusal(fault: Fault, memory: &Memory, code: Option<u16>) -> Option<Refusal> {
    match (fault, code) {
        (Fault::NotMade(other), Some(code)) if code == other => Some(Refusal::Taken),
        (Fault::Exchanged(early, late), Some(code)) if code == early && fails_too(memory, late) => {
            Some(Refusal::Code(late))
        }
        (Fault::Ceiling(list), None) if Some(memory.count(list)) == list.ceiling() => Some(Refusal::Code(1)),
        (Fault::ComponentCeiling, None) if memory.components() == MAX_COMPONENTS => Some(Refusal::Code(11)),
        (Fault::OneShort(slice), Some(1 | 14)) => {
            let longer = one_longer(memory, slice);
            accepted(&longer).then_some(Refusal::Taken)
        }
        (Fault::Truncated(list), Some(1)) => {
            let mut truncated = memory.clone();
            *truncated.count_mut(list) &= 0xffff;
            accepted(&truncated).then_some(Refusal::Taken)
        }
        (Fault::RunsByStart, Some(4)) => (!equal_by_start(memory)).then_some(Refusal::Taken),
        (Fault::OwnPart, Some(3)) => own_part(memory).then_some(Refusal::Taken),
        (Fault::StraysChecked, None) => strays(memory).then_some(Refusal::Code(9)),
        _ => None,
    }
}

fn accepted(memory: &Memory) -> bool {
    checks::first_failing(memory, Question::Solve).is_none()
}

fn one_longer(memory: &Memory, slice: Slice) -> Memory {
    let mut longer = memory.clone();
    match slice {
        Slice::Sorts => longer.sorts.push(0),
        Slice::Nodes => longer.nodes.push(0),
        Slice::Bindings => longer.bindings.push(FREE),
        Slice::Exprs => longer.exprs.push(0),
        Slice::Names => longer.names.push(0),
        Slice::Constraints => longer.constraints.push(0),
        Slice::Overloads => longer.overloads.push(0),
        Slice::Sources => longer.sources.push(0),
        Slice::Scratch => longer.scratch += 1,
        Slice::Index => longer.index += 1,
        Slice::OutTyping => longer.out_typing += 1,
        Slice::OutMeasure => longer.out_measure += 1,
        Slice::OutChoices => longer.out_choices += 1,
    }
    longer
}

/// Whether the next check after the first failing one fails too, on a list for which it makes sense.
fn fails_too(memory: &Memory, late: u16) -> bool {
    match late {
        2 => {
            let sorts = memory.sort_count.min(memory.sorts.len() / ROW);
            sorts < 6 || (0..6).any(|number| usize::from(memory.sort(number).kind) != number)
        }
        4 => equal_rows(memory),
        7 => {
            let mut mended = memory.clone();
            let nodes = memory.node_count + usize::from(FIRST_NODE);
            for place in &mut mended.bindings[..memory.variable_count] {
                let number = usize::from(*place);
                let is_place = if *place < FIRST_NODE { number < memory.sort_count } else { number < nodes };
                *place = if is_place { *place } else { FREE };
            }
            !checks::passes(&mended, Question::Solve, 7)
        }
        late => !checks::passes(memory, Question::Solve, late),
    }
}

/// Whether two rows of sorts have the same kind and parts; a run that leaves the words has none.
fn equal_rows(memory: &Memory) -> bool {
    let parts = |number: usize| {
        let row = memory.sort(number);
        let part = if row.kind <= kind::REAL { 0 } else { row.part };
        let start = ENTRIES_AT + usize::from(row.start);
        let run = memory.sorts.get(start..start + usize::from(row.count));
        let run = if row.kind == kind::FUNCTION { run.unwrap_or_default() } else { &[] };
        (row.kind, part, run)
    };
    (0..memory.sort_count).any(|number| (0..number).any(|other| parts(number) == parts(other)))
}

/// Whether two sorts are equal and, if they are functions, have the same run.
fn equal_by_start(memory: &Memory) -> bool {
    let parts = |number: usize| {
        let row = memory.sort(number);
        let part = if row.kind <= kind::REAL { 0 } else { row.part };
        let run = if row.kind == kind::FUNCTION { (row.start, row.count) } else { (0, 0) };
        (row.kind, part, run)
    };
    (0..memory.sort_count).any(|number| (0..number).any(|other| parts(number) == parts(other)))
}

/// Whether a container has itself as part.
fn own_part(memory: &Memory) -> bool {
    (6..memory.sort_count).any(|number| {
        let row = memory.sort(number);
        row.is_container() && usize::from(row.part) == number
    })
}

/// Whether an overload that is not well formed is in the list.
fn strays(memory: &Memory) -> bool {
    (0..memory.overload_count).any(|index| !(1..=3).contains(&memory.overload(index)[0]))
}
