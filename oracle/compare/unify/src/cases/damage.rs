//! Lists with one or two faults, each planted so that its check, and none before it, fails.

use common::draft::put_row;
use common::junk::Junk;
use lists::checks;
use lists::memory::*;
use lists::question::Question;
use lists::rng::Rng;

use crate::cases::Case;
use crate::cases::mixed::add_random;
use crate::terms::Terms;

/// The checks of unify.
const CODES: [u16; 9] = [1, 2, 3, 4, 5, 6, 7, 12, 14];

/// What a second fault may still add. Of nodes and variables a long cycle takes many.
const MORE_SORTS: usize = 2;
const MORE_NODES: usize = 1_600;
const MORE_ENTRIES: usize = 2 * MAX_ARGUMENTS;
const MORE_VARIABLES: usize = 400;

/// Case `index` has the faults of its number: each code, then each pair of codes, and so on anew.
pub fn case(rng: &mut Rng, junk: &Junk, index: u64) -> Case {
    let mut terms = Terms::new(rng);
    add_random(&mut terms);
    let pair = terms.pair();
    let mut memory = terms.memory(junk);
    let lengths = [memory.sorts.len(), memory.nodes.len(), memory.bindings.len()];
    let more = memory.bindings.len() + MORE_VARIABLES;
    memory.bindings.resize(more, 0);
    let faults = faults(index);
    let mut damage = Damage { rng, memory, lengths, pair, single: faults.len() == 1 };
    for &code in &faults {
        damage.plant(code);
        let found = checks::first_failing(&damage.lent(), Question::Unify(damage.pair.0, damage.pair.1));
        assert_eq!(found, Some(code), "the model does not name the planted fault");
    }
    Case { planted: faults.last().copied(), ..Case::new(damage.lent(), vec![damage.pair]) }
}

/// The later check first, so that each fault is seen when it is planted.
fn faults(index: u64) -> Vec<u16> {
    let single = CODES.iter().map(|&code| vec![code]);
    let pairs = CODES.iter().flat_map(|&late| CODES.iter().map(move |&early| vec![late, early]));
    let all: Vec<Vec<u16>> = single.chain(pairs.filter(|pair| pair[0] > pair[1])).collect();
    all[(index % all.len() as u64) as usize].clone()
}

/// Places of the lent slices in [Damage::lengths].
const SORTS: usize = 0;
const NODES: usize = 1;
const BINDINGS: usize = 2;

struct Damage<'a> {
    rng: &'a mut Rng,
    memory: Memory,
    /// How many words are lent of sorts, nodes and bindings.
    lengths: [usize; 3],
    pair: (u16, u16),
    /// There is no second fault to leave room for.
    single: bool,
}

impl Damage<'_> {
    /// The list as the call gets it.
    fn lent(&self) -> Memory {
        let mut memory = self.memory.clone();
        memory.sorts.truncate(self.lengths[SORTS]);
        memory.nodes.truncate(self.lengths[NODES]);
        memory.bindings.truncate(self.lengths[BINDINGS]);
        memory
    }

    fn plant(&mut self, code: u16) {
        match code {
            1 => self.too_long(),
            2 => self.six(),
            3 => self.bad_sort(),
            4 => self.equal_sorts(),
            5 => self.bad_node(),
            6 => self.bad_binding(),
            7 => self.cycle(),
            12 => self.not_in_list(),
            _ => self.too_short(),
        }
    }

    // Check 1.

    fn too_long(&mut self) {
        let memory = &self.memory;
        let counts = [memory.sort_count, memory.entry_count, memory.node_count, memory.node_entry_count];
        match self.rng.below(10) {
            0 => self.memory.sort_count = self.above(MAX_SORTS),
            1 => self.memory.entry_count = self.above(MAX_ENTRIES),
            2 => self.memory.node_count = self.above(MAX_NODES),
            3 => self.memory.node_entry_count = self.above(MAX_NODE_ENTRIES),
            4 => self.memory.variable_count = self.above(MAX_VARIABLES),
            5 if counts[0] > 0 => self.lengths[SORTS] = ROW * counts[0] - self.rng.between(1, ROW),
            6 if counts[1] > 0 => self.lengths[SORTS] = ENTRIES_AT + self.rng.below(counts[1]),
            7 if counts[2] > 0 => self.lengths[NODES] = ROW * counts[2] - self.rng.between(1, ROW),
            8 if counts[3] > 0 => self.lengths[NODES] = NODE_ENTRIES_AT + self.rng.below(counts[3]),
            _ => self.lengths[BINDINGS] = self.rng.below(self.memory.variable_count),
        }
    }

    /// A count above a ceiling, up to those whose size in words does not fit a number.
    fn above(&mut self, ceiling: usize) -> usize {
        let counts = [ceiling + 1, ceiling + 2, 65_535, 65_536, usize::MAX / 4 + 1, usize::MAX / 4 + 7, usize::MAX];
        self.rng.pick(&counts)
    }

    // Checks 2 to 4.

    fn six(&mut self) {
        let number = self.rng.below(6);
        match self.rng.below(3) {
            0 => self.memory.sort_count = number,
            1 => {
                let wrong = [number + 1, number + 13, kind::LIST.into(), kind::TYPE_VAR.into(), 14, 65_535];
                self.memory.sorts[ROW * number] = self.rng.pick(&wrong) as u16;
            }
            _ => self.memory.sorts.swap(ROW * number, ROW * ((number + 1) % 6)),
        }
    }

    /// The number of a row past the first six, or of one more row.
    fn some_sort(&mut self) -> usize {
        let number = self.rng.between(6, self.memory.sort_count);
        self.memory.sort_count = self.memory.sort_count.max(number + 1);
        number
    }

    fn put_sort(&mut self, number: usize, row: Row) {
        put_row(&mut self.memory.sorts[ROW * number..][..ROW], row);
    }

    /// A function with a run of its own.
    fn function_sort(&mut self, range: usize, arguments: &[u16]) -> Row {
        let start = self.memory.entry_count;
        self.memory.sorts[ENTRIES_AT + start..][..arguments.len()].copy_from_slice(arguments);
        self.memory.entry_count += arguments.len();
        Row { kind: kind::FUNCTION, part: range as u16, start: start as u16, count: arguments.len() as u16 }
    }

    fn bad_sort(&mut self) {
        let number = self.some_sort();
        let above = self.rng.pick(&[number, number, number + 1, 1_024, 65_535]);
        let row = match self.rng.below(7) {
            0 => Row::plain(self.rng.pick(&[kind::VARIABLE, 15, 255, 256, 65_535]), 0),
            1 => Row::plain(self.container_kind(), above as u16),
            2 => self.function_sort(above, &[kind::BOOL]),
            3 => self.function_sort(kind::BOOL.into(), &[kind::NAT, above as u16]),
            4 => self.function_sort(kind::BOOL.into(), &[kind::BOOL; MAX_ARGUMENTS + 1]),
            5 => Row { kind: kind::FUNCTION, part: 0, start: 0, count: self.rng.pick(&[17, 18, 256, 65_535]) },
            _ => self.leaving_run(self.memory.entry_count),
        };
        self.put_sort(number, row);
    }

    fn container_kind(&mut self) -> u16 {
        self.rng.between(kind::LIST.into(), kind::FBAG.into()) as u16
    }

    /// A function whose run ends past the entries.
    fn leaving_run(&mut self, entries: usize) -> Row {
        let past = entries + 1;
        let count = self.rng.pick(&[0, 1, 2, MAX_ARGUMENTS]);
        let start = self.rng.pick(&[past.saturating_sub(count), past, 65_535]);
        Row { kind: kind::FUNCTION, part: 0, start: start as u16, count: count as u16 }
    }

    /// A row equal to one before it; a function's run may be another one with the same entries.
    fn equal_sorts(&mut self) {
        let number = self.some_sort();
        let first = self.rng.below(number);
        let mut row = self.memory.sort(first);
        if row.kind == kind::FUNCTION && self.rng.chance(70) {
            let arguments = self.memory.sort_arguments(row).to_vec();
            row = self.function_sort(row.part.into(), &arguments);
        }
        self.put_sort(number, row);
    }

    // Checks 5 to 7.

    /// A word that names nothing, also after a second fault; not that of a free variable.
    fn no_place(&mut self) -> u16 {
        let (mut sorts, mut nodes) = (self.memory.sort_count, usize::from(FIRST_NODE) + self.memory.node_count);
        if !self.single {
            sorts += MORE_SORTS;
            nodes += MORE_NODES;
        }
        self.rng.pick(&[sorts, sorts + 1, 1_023, nodes, nodes + 1, 65_534]) as u16
    }

    fn put_node(&mut self, number: usize, row: Row) {
        put_row(&mut self.memory.nodes[ROW * number..][..ROW], row);
        self.memory.node_count = self.memory.node_count.max(number + 1);
    }

    fn push_node(&mut self, row: Row) -> u16 {
        let number = self.memory.node_count;
        self.put_node(number, row);
        Place::Node(number as u16).word()
    }

    /// A function with a run of its own.
    fn function_node(&mut self, range: u16, arguments: &[u16]) -> Row {
        let start = self.memory.node_entry_count;
        self.memory.nodes[NODE_ENTRIES_AT + start..][..arguments.len()].copy_from_slice(arguments);
        self.memory.node_entry_count += arguments.len();
        Row { kind: kind::FUNCTION, part: range, start: start as u16, count: arguments.len() as u16 }
    }

    /// A bad row in place of one, or at the end.
    fn bad_node(&mut self) {
        let number = self.rng.between(0, self.memory.node_count);
        let own = Place::Node((number + self.rng.below(3)) as u16).word();
        let no_place = self.no_place();
        let part = self.rng.pick(&[own, own, no_place, 65_535]);
        let variables = self.memory.variable_count + if self.single { 0 } else { MORE_VARIABLES };
        let row = match self.rng.below(8) {
            0 => Row::plain(self.rng.pick(&[kind::UNIT, kind::REAL, kind::DEF, kind::TYPE_VAR, 15, 256, 65_535]), 0),
            1 => Row::plain(self.container_kind(), part),
            2 => self.function_node(part, &[kind::BOOL]),
            3 => self.function_node(kind::BOOL, &[kind::NAT, part]),
            4 => self.function_node(kind::BOOL, &[kind::BOOL; MAX_ARGUMENTS + 1]),
            5 => Row { kind: kind::FUNCTION, part: 0, start: 0, count: self.rng.pick(&[17, 18, 256, 65_535]) },
            6 => self.leaving_run(self.memory.node_entry_count),
            _ => Row::plain(kind::VARIABLE, self.rng.pick(&[variables, variables + 1, 512, 65_535]) as u16),
        };
        self.put_node(number, row);
    }

    fn some_variable(&mut self) -> usize {
        self.rng.below(self.memory.variable_count)
    }

    fn bad_binding(&mut self) {
        let variable = self.some_variable();
        self.memory.bindings[variable] = self.no_place();
    }

    /// A variable that reaches itself, through variables, containers and functions; the way may be long.
    fn cycle(&mut self) {
        let links = match self.rng.below(20) {
            0 => self.rng.between(10, MORE_VARIABLES),
            _ => self.rng.below(3),
        };
        let first = self.some_variable();
        let mut place = self.push_node(Row::plain(kind::VARIABLE, first as u16));
        for _ in 0..links {
            place = self.link(place);
        }
        for _ in 0..self.rng.below(3) {
            place = self.wrapped(place);
        }
        self.memory.bindings[first] = place;
    }

    /// The node of a new variable that is bound to a place, or to a term over it.
    fn link(&mut self, mut place: u16) -> u16 {
        if self.rng.chance(30) {
            place = self.wrapped(place);
        }
        let variable = self.memory.variable_count;
        self.memory.variable_count += 1;
        self.lengths[BINDINGS] = self.lengths[BINDINGS].max(variable + 1);
        self.memory.bindings[variable] = place;
        self.push_node(Row::plain(kind::VARIABLE, variable as u16))
    }

    fn wrapped(&mut self, place: u16) -> u16 {
        let row = match self.rng.below(4) {
            0 => self.function_node(kind::BOOL, &[kind::NAT, place]),
            1 => self.function_node(place, &[]),
            _ => Row::plain(self.container_kind(), place),
        };
        self.push_node(row)
    }

    // Checks 12 and 14.

    fn not_in_list(&mut self) {
        let no_place = self.no_place();
        let place = self.rng.pick(&[no_place, no_place, 65_535]);
        match self.rng.below(3) {
            0 => self.pair.0 = place,
            1 => self.pair.1 = place,
            _ => self.pair = (place, place),
        }
    }

    fn too_short(&mut self) {
        let memory = &self.memory;
        let more = |count: usize, more: usize| if self.single { count } else { count + more };
        let (slice, rows, entries, entries_at, full) = match self.rng.chance(50) {
            true => (
                SORTS,
                more(memory.sort_count, MORE_SORTS),
                more(memory.entry_count, MORE_ENTRIES),
                ENTRIES_AT,
                SORT_STORAGE,
            ),
            false => (
                NODES,
                more(memory.node_count, MORE_NODES),
                more(memory.node_entry_count, 2 * MORE_VARIABLES + MORE_ENTRIES),
                NODE_ENTRIES_AT,
                NODE_STORAGE,
            ),
        };
        let least = if entries > 0 { entries_at + entries } else { ROW * rows };
        self.lengths[slice] = match self.rng.below(3) {
            0 => least,
            1 => full - 1,
            _ => self.rng.between(least, full - 1),
        };
    }
}
