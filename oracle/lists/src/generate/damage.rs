//! Lists with one or two faults. A fault is planted so that its check, and none before it, fails.

use crate::generate::Case;
use crate::generate::Class;
use crate::generate::random;
use crate::given::Counted;
use crate::given::Given;
use crate::given::Lent;
use crate::memory::*;
use crate::question::Question;
use crate::rng::Rng;

/// The checks of each entry that a fault can be planted for.
const SOLVE_CODES: [u16; 13] = [1, 2, 3, 4, 5, 6, 7, 8, 9, 10, 11, 12, 14];
const UNIFY_CODES: [u16; 9] = [1, 2, 3, 4, 5, 6, 7, 12, 14];
const LATTICE_CODES: [u16; 6] = [1, 2, 3, 4, 12, 14];

/// The call that a fault is planted for.
#[derive(Clone, Copy, PartialEq)]
enum Entry {
    Solve,
    Unify,
    Lattice,
}

pub fn damaged(rng: &mut Rng, size: usize) -> Case {
    let class = rng.pick(&[Class::Solve, Class::Join, Class::Choice]);
    let mut case = random::solve(rng, class, size);
    let (entry, codes): (Entry, &[u16]) = match rng.below(10) {
        0 => (Entry::Unify, &UNIFY_CODES),
        1 => (Entry::Lattice, &LATTICE_CODES),
        _ => (Entry::Solve, &SOLVE_CODES),
    };
    let mut faults = vec![rng.pick(codes)];
    if rng.chance(50) {
        faults.push(rng.pick(codes));
    }
    // The later check's fault first, so that the earlier one's stands whatever it changes.
    faults.sort_unstable_by(|a, b| b.cmp(a));
    faults.dedup();
    case.questions = vec![question(rng, entry, &case.list)];
    let mut damage = Damage { rng, list: &mut case.list, entry, question: &mut case.questions[0], spare: 0 };
    for &code in &faults {
        damage.plant(code);
    }
    case.planted = faults.last().copied();
    case
}

/// Rows and entries that other faults may add to a list: [plant] keeps clear of them.
const SPARE: usize = 100;

/// Plants a fault for the solver beside others, one of checks 2 to 12. What it adds is at the end, and what names
/// nothing in it still names nothing after more such faults.
pub fn plant(rng: &mut Rng, list: &mut Given, code: u16) {
    assert!((2..=12).contains(&code), "checks 1 and 14 look at what is lent");
    let mut question = Question::Solve;
    Damage { rng, list, entry: Entry::Solve, question: &mut question, spare: SPARE }.plant(code);
}

/// Replaces a row, or appends one.
fn put(rows: &mut Vec<Row>, number: usize, row: Row) {
    match rows.get_mut(number) {
        Some(old) => *old = row,
        None => rows.push(row),
    }
}

fn question(rng: &mut Rng, entry: Entry, list: &Given) -> Question {
    let sort = |rng: &mut Rng| rng.below(list.sorts.len()) as u16;
    match entry {
        Entry::Solve => Question::Solve,
        Entry::Unify => Question::Unify(sort(rng), sort(rng)),
        Entry::Lattice => {
            let index = rng.below(5);
            random::of_sorts(sort(rng), sort(rng))[index]
        }
    }
}

struct Damage<'a> {
    rng: &'a mut Rng,
    list: &'a mut Given,
    entry: Entry,
    question: &'a mut Question,
    /// How many rows more there may be in the end. Where there may be some, rows are only appended.
    spare: usize,
}

impl Damage<'_> {
    fn plant(&mut self, code: u16) {
        match code {
            1 => self.too_long(),
            2 => self.six(),
            3 => self.sort(),
            4 => self.equal_sorts(),
            5 => self.node(),
            6 => self.binding(),
            7 => self.cycle(),
            8 => self.expression_or_name(),
            9 => self.constraint(),
            10 => self.same_key(),
            11 => self.measure(),
            12 => self.asked_about(),
            _ => self.too_short(),
        }
    }

    // Words that name nothing.

    fn no_sort(&mut self) -> u16 {
        let count = self.list.sorts.len() + self.spare;
        self.rng.pick(&[count, count + 1, 1023, 1024, 65_535]).max(count) as u16
    }

    fn no_place(&mut self) -> u16 {
        let (sorts, nodes) = (self.list.sorts.len() + self.spare, self.list.nodes.len() + self.spare);
        let first_node = usize::from(FIRST_NODE);
        self.rng.pick(&[sorts, 1023, first_node + nodes, first_node + nodes + 1, 65_534]) as u16
    }

    fn no_expression(&mut self) -> u16 {
        let count = self.list.exprs.len() + self.spare;
        self.rng.pick(&[count, count + 1, 512, 65_535]).max(count) as u16
    }

    // Check 1.

    fn too_long(&mut self) {
        let lists: &[(Counted, usize)] = &[
            (Counted::Sorts, MAX_SORTS),
            (Counted::Entries, MAX_ENTRIES),
            (Counted::Nodes, MAX_NODES),
            (Counted::NodeEntries, MAX_NODE_ENTRIES),
            (Counted::Vars, MAX_VARIABLES),
            (Counted::Exprs, MAX_EXPRESSIONS),
            (Counted::Constraints, MAX_CONSTRAINTS),
            (Counted::Overloads, MAX_OVERLOADS),
            (Counted::Sources, MAX_SOURCES),
            (Counted::Names, 0),
        ];
        let reached = match self.entry {
            Entry::Solve => lists.len(),
            Entry::Unify => 5,
            Entry::Lattice => 2,
        };
        let (list, ceiling) = self.rng.pick(&lists[..reached]);
        let rows = self.list.rows(list);
        if rows > 0 && self.rng.chance(50) {
            self.lend_less_than(list, rows);
        } else {
            let count = self.rng.pick(&[ceiling + 1, ceiling + 2, 65_535]);
            self.list.set_count(list, count.max(rows + 1) as u16);
        }
    }

    /// Lends a slice that ends inside the last row of a list.
    fn lend_less_than(&mut self, list: Counted, rows: usize) {
        let (slice, at, row) = list.place();
        let words = at + rows * row - self.rng.between(1, row);
        self.list.set_count(list, rows as u16);
        self.list.set_lend(slice, words as u16);
    }

    // Checks 2 to 4.

    fn six(&mut self) {
        let number = self.rng.below(6);
        match self.rng.below(3) {
            0 => self.list.set_count(Counted::Sorts, number as u16),
            1 => self.list.sorts[number].kind = self.rng.pick(&[kind::LIST, kind::DEF, kind::VARIABLE, 65_535]),
            _ => self.list.sorts.swap(number, (number + 1) % 6),
        }
    }

    /// A bad row in place of one past the first six, or at the end.
    fn sort(&mut self) {
        let number = self.row_from(6, self.list.sorts.len());
        let above = (number + self.rng.below(3)) as u16;
        let row = match self.rng.below(6) {
            0 => Row::plain(self.rng.pick(&[kind::VARIABLE, 15, 16, 65_535]), 0),
            1 => Row::plain(self.rng.between(kind::LIST.into(), kind::FBAG.into()) as u16, above),
            2 => self.function_sort(above, &[kind::BOOL]),
            3 => self.function_sort(kind::BOOL, &[kind::NAT, above]),
            4 => self.function_sort(kind::BOOL, &[kind::BOOL; MAX_ARGUMENTS + 1]),
            _ => self.leaving_run(kind::BOOL, self.list.entries.len()),
        };
        put(&mut self.list.sorts, number, row);
    }

    /// The number of a row from `first` on, or of one more.
    fn row_from(&mut self, first: usize, rows: usize) -> usize {
        if self.spare > 0 { rows } else { self.rng.between(first, rows) }
    }

    fn function_sort(&mut self, range: u16, arguments: &[u16]) -> Row {
        let start = self.list.entries.len() as u16;
        self.list.entries.extend(arguments);
        Row { kind: kind::FUNCTION, part: range, start, count: arguments.len() as u16 }
    }

    /// A function whose run ends past a list of `length` entries.
    fn leaving_run(&mut self, range: u16, length: usize) -> Row {
        let count = self.rng.below(3) as u16;
        let start = (length + self.spare + 1) as u16 - count.min(length as u16);
        Row { kind: kind::FUNCTION, part: range, start, count }
    }

    fn equal_sorts(&mut self) {
        let number = self.rng.below(self.list.sorts.len());
        let mut row = self.list.sorts[number];
        if row.kind == kind::FUNCTION && self.rng.chance(50) {
            let run = usize::from(row.start)..usize::from(row.start + row.count);
            row.start = self.list.entries.len() as u16;
            self.list.entries.extend_from_within(run);
        }
        self.list.sorts.push(row);
    }

    // Checks 5 to 7.

    /// A bad row in place of one, or at the end.
    fn node(&mut self) {
        let number = self.row_from(0, self.list.nodes.len());
        let own = Place::Node((number + self.rng.below(3)) as u16).word();
        let part = if self.rng.chance(50) { own } else { self.no_place() };
        let row = match self.rng.below(7) {
            0 => Row::plain(self.rng.pick(&[kind::UNIT, kind::REAL, kind::DEF, kind::TYPE_VAR, 15, 65_535]), 0),
            1 => Row::plain(self.rng.between(kind::LIST.into(), kind::FBAG.into()) as u16, part),
            2 => self.function_node(part, &[kind::BOOL]),
            3 => self.function_node(kind::BOOL, &[kind::NAT, part]),
            4 => self.function_node(kind::BOOL, &[kind::BOOL; MAX_ARGUMENTS + 1]),
            5 => self.leaving_run(kind::BOOL, self.list.node_entries.len()),
            _ => Row::plain(kind::VARIABLE, (self.list.bindings.len() + self.spare + self.rng.below(2)) as u16),
        };
        put(&mut self.list.nodes, number, row);
    }

    fn function_node(&mut self, range: u16, arguments: &[u16]) -> Row {
        let start = self.list.node_entries.len() as u16;
        self.list.node_entries.extend(arguments);
        Row { kind: kind::FUNCTION, part: range, start, count: arguments.len() as u16 }
    }

    fn some_variable(&mut self) -> usize {
        if self.list.bindings.is_empty() || self.spare > 0 || self.rng.chance(20) {
            self.list.bindings.push(FREE);
            return self.list.bindings.len() - 1;
        }
        self.rng.below(self.list.bindings.len())
    }

    fn binding(&mut self) {
        let variable = self.some_variable();
        self.list.bindings[variable] = self.no_place();
    }

    fn push_node(&mut self, row: Row) -> u16 {
        self.list.nodes.push(row);
        Place::Node(self.list.nodes.len() as u16 - 1).word()
    }

    /// A variable that reaches itself, sometimes inside containers and through a second variable.
    fn cycle(&mut self) {
        let variable = self.some_variable();
        let mut place = self.push_node(Row::plain(kind::VARIABLE, variable as u16));
        for _ in 0..self.rng.below(3) {
            place = match self.rng.below(3) {
                0 => self.push_node(Row::plain(kind::LIST, place)),
                1 => {
                    let row = self.function_node(kind::BOOL, &[kind::NAT, place]);
                    self.push_node(row)
                }
                _ => {
                    let row = self.function_node(place, &[]);
                    self.push_node(row)
                }
            };
        }
        if self.rng.chance(50) {
            self.list.bindings.push(place);
            let second = self.list.bindings.len() as u16 - 1;
            place = self.push_node(Row::plain(kind::VARIABLE, second));
        }
        self.list.bindings[variable] = place;
    }

    // Checks 8 to 11.

    fn some_expression(&mut self) -> u16 {
        if self.list.exprs.is_empty() {
            self.list.exprs.push(kind::BOOL);
        }
        self.rng.below(self.list.exprs.len()) as u16
    }

    fn expression_or_name(&mut self) {
        let expression = self.some_expression();
        match self.rng.below(4) {
            0 => self.list.exprs[usize::from(expression)] = self.no_place(),
            1 => {
                let key = self.no_expression();
                self.list.names.push([key, target::VARIABLE, 0]);
            }
            2 => {
                let kind = self.rng.pick(&[target::NONE, 4, 65_535]);
                self.list.names.push([expression, kind, 0]);
            }
            _ => {
                let sort = self.no_sort();
                self.list.names.push([expression, target::OP, sort]);
            }
        }
    }

    fn constraint(&mut self) {
        let expression = self.some_expression();
        let place = self.no_place();
        let overloads = self.list.overloads.len() as u16;
        let sources = self.list.sources.len() as u16;
        let row = match self.rng.below(15) {
            0 => [self.rng.pick(&[5, 6, 65_535]), 0, 0, 0, 0],
            1 => [constraint::SUB, place, kind::NAT, 0, 0],
            2 => [constraint::SUB, kind::NAT, place, 0, 0],
            3 => [constraint::LIT, place, literal::NATURAL, 0, 0],
            4 => [constraint::LIT, kind::NAT, self.rng.pick(&[2, 65_535]), 0, 0],
            5 => [constraint::DISJUNCTION, self.no_expression(), kind::NAT, 0, 0],
            6 => [constraint::DISJUNCTION, expression, place, 0, 0],
            7 => [constraint::DISJUNCTION, expression, kind::NAT, overloads, 1],
            8 => self.disjunction_over(expression, |damage| [damage.rng.pick(&[target::NONE, 4]), 0, kind::NAT]),
            9 => self.disjunction_over(expression, |damage| [target::OP, damage.no_sort(), kind::NAT]),
            10 => self.disjunction_over(expression, |damage| [target::BUILTIN, 0, damage.no_place()]),
            11 => [constraint::COMPREHENSION, place, kind::NAT, kind::NAT, 0],
            12 => [constraint::COMPREHENSION, kind::NAT, kind::NAT, self.no_sort(), 0],
            13 => [constraint::JOIN, place, sources, 0, 0],
            _ => {
                self.list.sources.push(place);
                [constraint::JOIN, kind::NAT, sources, self.rng.pick(&[1, 2, 65_535]), 0]
            }
        };
        let index = self.rng.between(0, self.list.constraints.len());
        self.list.constraints.insert(index, row);
    }

    fn disjunction_over(
        &mut self,
        expression: u16,
        make: impl FnOnce(&mut Self) -> [u16; OVERLOAD],
    ) -> [u16; CONSTRAINT] {
        let overload = make(self);
        self.list.overloads.push(overload);
        [constraint::DISJUNCTION, expression, kind::NAT, self.list.overloads.len() as u16 - 1, 1]
    }

    fn same_key(&mut self) {
        let expression = self.some_expression();
        if self.rng.chance(50) {
            self.list.names.extend([[expression, target::VARIABLE, 0], [expression, target::BUILTIN, 0]]);
        } else {
            self.list.constraints.extend([[constraint::DISJUNCTION, expression, kind::NAT, 0, 0]; 2]);
        }
    }

    fn measure(&mut self) {
        let start = self.list.sources.len() as u16;
        if self.rng.chance(50) {
            let index = self.rng.between(0, self.list.constraints.len());
            self.list.constraints.insert(index, [constraint::JOIN, kind::NAT, start, 0, 0]);
        } else {
            self.list.sources.extend([kind::NAT; 65]);
            self.list.constraints.extend([[constraint::JOIN, kind::NAT, start, 65, 0]; 4]);
        }
    }

    // Checks 12 and 14.

    fn asked_about(&mut self) {
        let sort = self.no_sort();
        match self.entry {
            Entry::Solve => self.list.default = sort,
            Entry::Unify => {
                let (place, other) = (self.no_place(), kind::BOOL);
                *self.question =
                    if self.rng.chance(50) { Question::Unify(place, other) } else { Question::Unify(other, place) };
            }
            Entry::Lattice => {
                let index = self.rng.below(5);
                let (lhs, rhs) = if self.rng.chance(50) { (sort, kind::BOOL) } else { (kind::BOOL, sort) };
                *self.question = random::of_sorts(lhs, rhs)[index];
            }
        }
    }

    fn too_short(&mut self) {
        let memory = self.list.memory();
        let slices = [
            (Lent::Sorts, SORT_STORAGE),
            (Lent::Nodes, NODE_STORAGE),
            (Lent::Scratch, SCRATCH),
            (Lent::OutTyping, 3 * memory.expr_count),
            (Lent::OutMeasure, memory.components()),
            (Lent::OutChoices, 2 * memory.disjunctions()),
        ];
        let reached = match self.entry {
            Entry::Solve => slices.len(),
            Entry::Unify => 2,
            Entry::Lattice => 1,
        };
        let mut needed: Vec<(Lent, usize)> =
            slices[..reached].iter().copied().filter(|&(_, words)| words > 0).collect();
        // Of a search the index is not cut short here: lists on record are among these.
        if matches!(self.question, Question::Join(..) | Question::Meet(..)) {
            needed.push((Lent::Index, INDEX));
        }
        let (slice, words) = self.rng.pick(&needed);
        self.list.set_lend(slice, (words - 1) as u16);
    }
}
