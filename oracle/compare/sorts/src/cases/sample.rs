//! The cases of the recorded sample, which a program that has no generator reads.

use common::draft::Draft;
use common::junk::Junk;
use lists::memory::*;
use lists::rng::Rng;
use lists::verdict::Shape;

use crate::call::Call;
use crate::cases::Case;
use crate::cases::Cases;
use crate::cases::Class;
use crate::expected::Expected;
use crate::expected::expected;

/// No list of the sample has more sorts.
const MOST_SORTS: usize = 60;

/// The pairs of document 01 and of the readings, the fixed six, then lists of the random classes.
pub fn sample(seed: u64) -> Vec<Case> {
    let junk = Junk::new(seed);
    let rng = &mut Rng::of_list(seed, 0);
    let mut cases: Vec<Case> = documented().iter().map(|table| documented_pair(rng, &junk, table)).collect();
    cases.push(fixed_six(rng, &junk));
    for (class, count) in [(Class::Mixed, 50), (Class::Far, 6), (Class::Damaged, 42)] {
        cases.extend(of_class(class, seed).take(count));
    }
    cases.extend(of_class(Class::FullEntries, seed).find(runs_out));
    cases
}

fn of_class(class: Class, seed: u64) -> impl Iterator<Item = Case> {
    let cases = Cases::new(class, seed);
    (0..)
        .filter_map(move |index| cases.case(index))
        .map(|case| Case { call: Call::new(case.call.memory), ..case })
        .filter(fits)
}

/// Whether a question of the case meets the ceiling.
fn runs_out(case: &Case) -> bool {
    case.questions.iter().any(|&question| expected(&case.call.memory, question) == Ok(Expected::NoRoom))
}

/// Whether the lines of the sample can say the list: its counts are those of its rows, and the
/// program that reads it lends full storage.
fn fits(case: &Case) -> bool {
    let memory = &case.call.memory;
    memory.sort_count <= MOST_SORTS && memory.entry_count <= MAX_ENTRIES && memory.sorts.len() >= SORT_STORAGE
}

/// Tables whose last two sorts are a pair.
fn documented() -> [Vec<Shape>; 6] {
    let plain = |kind, part| Shape { kind, part, arguments: Vec::new() };
    let function = |arguments: &[u16], part| Shape { kind: kind::FUNCTION, part, arguments: arguments.to_vec() };
    use kind::*;
    [
        // FSet(Pos) and Set(Nat); Nat -> Pos and Pos -> Nat: the example of the pair program.
        vec![plain(FSET, POS), plain(SET, NAT)],
        vec![function(&[NAT], POS), function(&[POS], NAT)],
        // FSet(Nat) and Set(Pos): the operator below, the part above.
        vec![plain(FSET, NAT), plain(SET, POS)],
        // FSet(Pos) and FSet(Nat); Bool -> Pos and Bool -> Nat: sources of Joins in document 01.
        vec![plain(FSET, POS), plain(FSET, NAT)],
        vec![function(&[BOOL], POS), function(&[BOOL], NAT)],
        // FSet(Nat) # Bool -> Bool and Set(Pos) # Pos -> Bool: no join, but FSet(Pos) is kept.
        vec![plain(FSET, NAT), plain(SET, POS), function(&[6, BOOL], BOOL), function(&[7, POS], BOOL)],
    ]
}

/// Both orders of a documented pair.
fn documented_pair(rng: &mut Rng, junk: &Junk, table: &[Shape]) -> Case {
    let mut draft = Draft::new(rng);
    let numbers: Vec<u16> = table.iter().map(|shape| draft.sort(shape.clone())).collect();
    let (lhs, rhs) = (numbers[numbers.len() - 2], numbers[numbers.len() - 1]);
    Case::about(draft.memory(junk), &[(lhs, rhs), (rhs, lhs)])
}

/// All pairs of the fixed six.
fn fixed_six(rng: &mut Rng, junk: &Junk) -> Case {
    let six = kind::UNIT..=kind::REAL;
    let pairs: Vec<(u16, u16)> = six.clone().flat_map(|lhs| six.clone().map(move |rhs| (lhs, rhs))).collect();
    Case::about(Draft::new(rng).memory(junk), &pairs)
}
