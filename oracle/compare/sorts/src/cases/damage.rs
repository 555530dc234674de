//! Lists with one or two faults, each planted so that its check, and none before it, fails.

use common::draft::Draft;
use common::draft::put_row;
use common::junk::Junk;
use lists::checks;
use lists::memory::*;
use lists::question::Question;
use lists::rng::Rng;

use crate::cases::Case;
use crate::cases::add_sorts;

/// The checks of a question about two sorts.
const CODES: [u16; 6] = [1, 2, 3, 4, 12, 14];

/// Rows and entries that a second fault may still add.
const MORE_ROWS: usize = 2;
const MORE_ENTRIES: usize = 2 * MAX_ARGUMENTS;

/// Case `index` has the faults of its number: each code, then each pair of codes, and so on anew.
pub fn damaged(rng: &mut Rng, junk: &Junk, index: u64) -> Case {
    let mut draft = Draft::new(rng);
    if draft.rng.chance(90) {
        add_sorts(&mut draft);
    }
    let pair = draft.pair(0);
    let memory = draft.memory(junk);
    let faults = faults(index);
    let mut damage = Damage { rng, length: memory.sorts.len(), memory, pair, single: faults.len() == 1 };
    for &code in &faults {
        damage.plant(code);
        let found = checks::first_failing(&damage.lent(), Question::PartialCmp(damage.pair.0, damage.pair.1));
        assert_eq!(found, Some(code), "the model does not name the planted fault");
    }
    let case = Case::about(damage.lent(), &[damage.pair]);
    Case { planted: faults.last().copied(), ..case }
}

/// The later check first, so that each fault is seen when it is planted.
fn faults(index: u64) -> Vec<u16> {
    let single = CODES.iter().map(|&code| vec![code]);
    let pairs = CODES.iter().flat_map(|&late| CODES.iter().map(move |&early| vec![late, early]));
    let all: Vec<Vec<u16>> = single.chain(pairs.filter(|pair| pair[0] > pair[1])).collect();
    all[(index % all.len() as u64) as usize].clone()
}

struct Damage<'a> {
    rng: &'a mut Rng,
    memory: Memory,
    /// How many of its words are lent.
    length: usize,
    pair: (u16, u16),
    /// There is no second fault to leave room for.
    single: bool,
}

impl Damage<'_> {
    /// The list as the call gets it.
    fn lent(&self) -> Memory {
        let mut memory = self.memory.clone();
        memory.sorts.truncate(self.length);
        memory
    }

    fn plant(&mut self, code: u16) {
        match code {
            1 => self.too_long(),
            2 => self.six(),
            3 => self.bad_sort(),
            4 => self.equal_sorts(),
            12 => self.not_in_list(),
            _ => self.too_short(),
        }
    }

    // Check 1.

    fn too_long(&mut self) {
        let (rows, entries) = (self.memory.sort_count, self.memory.entry_count);
        match self.rng.below(4) {
            0 => self.memory.sort_count = self.above(MAX_SORTS),
            1 => self.memory.entry_count = self.above(MAX_ENTRIES),
            2 if entries > 0 => self.length = ENTRIES_AT + self.rng.below(entries),
            _ if rows > 0 => self.length = ROW * rows - self.rng.between(1, ROW),
            _ => self.memory.sort_count = MAX_SORTS + 1,
        }
    }

    /// A count above a ceiling, up to those whose size in words does not fit a number.
    fn above(&mut self, ceiling: usize) -> usize {
        let counts = [ceiling + 1, ceiling + 2, 65_535, 65_536, usize::MAX / 4 + 1, usize::MAX / 4 + 7, usize::MAX];
        self.rng.pick(&counts)
    }

    // Checks 2 to 4.

    fn six(&mut self) {
        let number = self.rng.below(6);
        match self.rng.below(3) {
            0 => self.memory.sort_count = number,
            1 => {
                let wrong = [number + 1, number + 13, kind::LIST.into(), kind::TYPE_VAR.into(), 14, 65_535];
                self.memory.sorts[ROW * number] = self.rng.pick(&wrong) as u16;
            }
            _ => self.memory.sorts.swap(ROW * number, ROW * ((number + 1) % 6)),
        }
    }

    /// The number of a row past the first six, or of one more row.
    fn some_row(&mut self) -> usize {
        let number = self.rng.between(6, self.memory.sort_count);
        self.memory.sort_count = self.memory.sort_count.max(number + 1);
        number
    }

    fn put(&mut self, number: usize, row: Row) {
        put_row(&mut self.memory.sorts[ROW * number..][..ROW], row);
    }

    /// A function with a run of its own.
    fn function(&mut self, range: usize, arguments: &[u16]) -> Row {
        let start = self.memory.entry_count;
        self.memory.sorts[ENTRIES_AT + start..][..arguments.len()].copy_from_slice(arguments);
        self.memory.entry_count += arguments.len();
        Row { kind: kind::FUNCTION, part: range as u16, start: start as u16, count: arguments.len() as u16 }
    }

    fn bad_sort(&mut self) {
        let number = self.some_row();
        let above = self.rng.pick(&[number, number, number + 1, 1_024, 65_535]);
        let row = match self.rng.below(7) {
            0 => Row::plain(self.rng.pick(&[kind::VARIABLE, 15, 255, 256, 65_535]), 0),
            1 => Row::plain(self.rng.between(kind::LIST.into(), kind::FBAG.into()) as u16, above as u16),
            2 => self.function(above, &[kind::BOOL]),
            3 => self.function(kind::BOOL.into(), &[kind::NAT, above as u16]),
            4 => self.function(kind::BOOL.into(), &[kind::BOOL; MAX_ARGUMENTS + 1]),
            5 => Row { kind: kind::FUNCTION, part: 0, start: 0, count: self.rng.pick(&[17, 18, 256, 65_535]) },
            _ => self.leaving_run(),
        };
        self.put(number, row);
    }

    /// A function whose run ends past the entries.
    fn leaving_run(&mut self) -> Row {
        let past = self.memory.entry_count + 1;
        let count = self.rng.pick(&[0, 1, 2, MAX_ARGUMENTS]);
        let start = self.rng.pick(&[past.saturating_sub(count), past, 65_535]);
        Row { kind: kind::FUNCTION, part: 0, start: start as u16, count: count as u16 }
    }

    /// A row equal to one before it; a function's run may be another one with the same entries.
    fn equal_sorts(&mut self) {
        let number = self.some_row();
        let first = self.rng.below(number);
        let mut row = self.memory.sort(first);
        if row.kind == kind::FUNCTION && self.rng.chance(70) {
            let arguments = self.memory.sort_arguments(row).to_vec();
            row = self.function(row.part.into(), &arguments);
        }
        self.put(number, row);
    }

    // Checks 12 and 14.

    fn not_in_list(&mut self) {
        let count = self.memory.sort_count + if self.single { 0 } else { MORE_ROWS };
        let sort = self.rng.pick(&[count, count + 1, 1_023, 1_024, 65_535]) as u16;
        match self.rng.below(3) {
            0 => self.pair.0 = sort,
            1 => self.pair.1 = sort,
            _ => self.pair = (sort, sort),
        }
    }

    fn too_short(&mut self) {
        let (mut rows, mut entries) = (self.memory.sort_count, self.memory.entry_count);
        if !self.single {
            rows += MORE_ROWS;
            entries += MORE_ENTRIES;
        }
        let least = if entries > 0 { ENTRIES_AT + entries } else { ROW * rows };
        self.length = match self.rng.below(3) {
            0 => least,
            1 => SORT_STORAGE - 1,
            _ => self.rng.between(least, SORT_STORAGE - 1),
        };
    }
}
