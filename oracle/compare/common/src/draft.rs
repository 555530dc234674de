//! A list of sorts under construction. No sort is in it twice; runs of arguments may be shared and
//! may overlap.

use std::collections::HashMap;

use lists::memory::*;
use lists::rng::Rng;
use lists::verdict::Shape;

use crate::junk::Junk;

/// Where a sort that is made from another one stands to it.
#[derive(Clone, Copy, PartialEq)]
pub enum Way {
    /// Equal or wider.
    Up,
    /// Equal or narrower.
    Down,
    /// Any sort with which it has a join and a meet, or, now and then, none.
    Like,
}

impl Way {
    fn reversed(self) -> Way {
        match self {
            Way::Up => Way::Down,
            Way::Down => Way::Up,
            Way::Like => Way::Like,
        }
    }
}

pub struct Draft<'a> {
    pub rng: &'a mut Rng,
    rows: Vec<Row>,
    pub entries: Vec<u16>,
    shapes: Vec<Shape>,
    numbers: HashMap<Shape, u16>,
    /// How large each sort is when written out.
    sizes: Vec<usize>,
}

impl<'a> Draft<'a> {
    /// The fixed six sorts.
    pub fn new(rng: &'a mut Rng) -> Draft<'a> {
        let (rows, entries, shapes) = (Vec::new(), Vec::new(), Vec::new());
        let mut draft = Draft { rng, rows, entries, shapes, numbers: HashMap::new(), sizes: Vec::new() };
        for kind in kind::UNIT..=kind::REAL {
            draft.plain(kind, 0);
        }
        draft
    }

    pub fn count(&self) -> usize {
        self.rows.len()
    }

    pub fn size(&self, sort: u16) -> usize {
        self.sizes[usize::from(sort)]
    }

    pub fn shape(&self, sort: u16) -> &Shape {
        &self.shapes[usize::from(sort)]
    }

    // Sorts by their parts: the number of an equal one, or one more row.

    pub fn plain(&mut self, kind: u16, part: u16) -> u16 {
        self.sort(Shape { kind, part, arguments: Vec::new() })
    }

    pub fn function(&mut self, arguments: Vec<u16>, range: u16) -> u16 {
        self.sort(Shape { kind: kind::FUNCTION, part: range, arguments })
    }

    pub fn sort(&mut self, shape: Shape) -> u16 {
        if let Some(&number) = self.numbers.get(&shape) {
            return number;
        }
        let number = self.rows.len() as u16;
        let start = match shape.kind {
            kind::FUNCTION => run(self.rng, &mut self.entries, &shape.arguments),
            _ => 0,
        };
        self.rows.push(Row { kind: shape.kind, part: shape.part, start, count: shape.arguments.len() as u16 });
        self.sizes.push(self.size_of(&shape));
        self.numbers.insert(shape.clone(), number);
        self.shapes.push(shape);
        number
    }

    fn size_of(&self, shape: &Shape) -> usize {
        let part = match shape.kind {
            kind::LIST..=kind::FUNCTION => self.size(shape.part),
            _ => 0,
        };
        1 + part + shape.arguments.iter().map(|&argument| self.size(argument)).sum::<usize>()
    }

    /// A sort of a table whose parts are sorts of that table, parts stored first.
    pub fn copy(&mut self, table: &[Shape], number: u16) -> u16 {
        let shape = &table[usize::from(number)];
        match shape.kind {
            kind::LIST..=kind::FUNCTION => {
                let arguments = shape.arguments.iter().map(|&argument| self.copy(table, argument)).collect();
                let part = self.copy(table, shape.part);
                self.sort(Shape { kind: shape.kind, part, arguments })
            }
            _ => self.sort(shape.clone()),
        }
    }

    // Random sorts.

    pub fn any(&mut self) -> u16 {
        self.rng.below(self.count()) as u16
    }

    /// Half the time one of the fixed six, mostly a number.
    fn common(&mut self) -> u16 {
        match self.rng.below(20) {
            0 => kind::UNIT,
            1 => kind::BOOL,
            2..=9 => self.rng.between(kind::POS.into(), kind::REAL.into()) as u16,
            _ => self.any(),
        }
    }

    fn container_kind(&mut self) -> u16 {
        self.rng.between(kind::LIST.into(), kind::FBAG.into()) as u16
    }

    /// Adds a sort over sorts so far, unless it would be larger than `largest`.
    pub fn add(&mut self, largest: usize) {
        let part = self.common();
        let shape = match self.rng.below(10) {
            0 => Shape {
                kind: self.rng.pick(&[kind::DEF, kind::TYPE_VAR]),
                part: self.rng.pick(&[0, 1, 2, 3, 255, 256, 1024, 65_535]),
                arguments: Vec::new(),
            },
            1..=5 => Shape { kind: self.container_kind(), part, arguments: Vec::new() },
            _ => Shape { kind: kind::FUNCTION, part, arguments: self.arguments() },
        };
        if self.size_of(&shape) <= largest {
            self.sort(shape);
        }
    }

    fn arguments(&mut self) -> Vec<u16> {
        let count = self.rng.pick(&[0, 0, 1, 1, 1, 1, 2, 2, 2, 3, 4, MAX_ARGUMENTS]);
        (0..count).map(|_| self.common()).collect()
    }

    /// A sort made from another one by changes at some of its places; `kept` of a hundred parts
    /// stay as they are.
    pub fn relative(&mut self, sort: u16, way: Way, kept: usize) -> u16 {
        if self.rng.chance(kept) {
            return sort;
        }
        if way == Way::Like && self.rng.chance(6) {
            return self.rng.between(kind::UNIT.into(), kind::REAL.into()) as u16;
        }
        let shape = self.shape(sort).clone();
        match shape.kind {
            kind::POS..=kind::REAL => self.number(shape.kind, way),
            kind::LIST..=kind::FBAG => {
                let part = self.relative(shape.part, way, kept);
                let container = self.container(shape.kind, way);
                self.plain(container, part)
            }
            kind::FUNCTION => {
                let against = way.reversed();
                let arguments = shape.arguments.iter().map(|&sort| self.relative(sort, against, kept)).collect();
                let range = self.relative(shape.part, way, kept);
                self.function(arguments, range)
            }
            _ => sort,
        }
    }

    fn number(&mut self, number: u16, way: Way) -> u16 {
        let (low, high) = match way {
            Way::Up => (number, kind::REAL),
            Way::Down => (kind::POS, number),
            Way::Like => (kind::POS, kind::REAL),
        };
        self.rng.between(low.into(), high.into()) as u16
    }

    fn container(&mut self, container: u16, way: Way) -> u16 {
        let (finite, infinite) = match container {
            kind::SET | kind::FSET => (kind::FSET, kind::SET),
            kind::BAG | kind::FBAG => (kind::FBAG, kind::BAG),
            other => (other, other),
        };
        match way {
            Way::Up => self.rng.pick(&[container, infinite]),
            Way::Down => self.rng.pick(&[container, finite]),
            Way::Like => self.rng.pick(&[finite, infinite]),
        }
    }

    /// Two sorts to ask about, one of them from number `first` on if there is one: mostly
    /// relatives, in either order, sometimes any two.
    pub fn pair(&mut self, first: usize) -> (u16, u16) {
        let lhs = self.large(first.min(self.count() - 1));
        let rhs = match self.rng.below(10) {
            0 => self.any(),
            1..=3 => self.other_relative(lhs, Way::Up),
            4..=5 => self.other_relative(lhs, Way::Down),
            _ => self.other_relative(lhs, Way::Like),
        };
        if self.rng.chance(50) { (lhs, rhs) } else { (rhs, lhs) }
    }

    /// Two sorts whose join and meet mostly make sorts, now and then though there is none.
    pub fn making_pair(&mut self, first: usize) -> (u16, u16) {
        let lhs = self.large(first.min(self.count() - 1));
        let rhs = self.other_relative(lhs, Way::Like);
        match self.rng.chance(20) {
            true => (self.function(vec![lhs], kind::BOOL), self.function(vec![rhs], kind::NAT)),
            false => (lhs, rhs),
        }
    }

    /// The largest of a few sorts from number `first` on.
    fn large(&mut self, first: usize) -> u16 {
        let sorts = [(); 3].map(|()| self.rng.between(first, self.count() - 1) as u16);
        sorts.into_iter().max_by_key(|&sort| self.size(sort)).expect("there are some")
    }

    /// A relative that is another sort, if a few tries find one.
    fn other_relative(&mut self, sort: u16, way: Way) -> u16 {
        let kept = self.rng.pick(&[0, 10, 30]);
        (0..4).map(|_| self.relative(sort, way, kept)).find(|&other| other != sort).unwrap_or(sort)
    }

    // The list in memory.

    /// The list in lent words, of which there are as many as needed or more.
    pub fn memory(self, junk: &Junk) -> Memory {
        let length = self.rng.pick(&[SORT_STORAGE, SORT_STORAGE, SORT_STORAGE, SORT_STORAGE + 1, 9_000, 16_384]);
        let words = junk.words(self.rng, length);
        self.laid_out(words)
    }

    /// Puts the list into these words. Those that it does not use stay, in its own rows too.
    pub fn laid_out(self, mut words: Vec<u16>) -> Memory {
        for (row, words) in self.rows.iter().zip(words.chunks_exact_mut(ROW)) {
            put_row(words, *row);
        }
        words[ENTRIES_AT..][..self.entries.len()].copy_from_slice(&self.entries);
        Memory::of_sorts(words, self.rows.len(), self.entries.len())
    }
}

/// The start of a run with these arguments in a list of entries: one that is there, or the end of the
/// list, which has some of them or none. Now and then a stray entry comes before it.
pub fn run(rng: &mut Rng, entries: &mut Vec<u16>, arguments: &[u16]) -> u16 {
    if arguments.is_empty() {
        return rng.between(0, entries.len()) as u16;
    }
    let shared = entries.windows(arguments.len()).position(|run| run == arguments);
    if let Some(start) = shared.filter(|_| rng.chance(60)) {
        return start as u16;
    }
    if rng.chance(25) {
        entries.push(u16::MAX);
    }
    let overlap = match rng.chance(60) {
        true => (0..arguments.len()).rev().find(|&length| entries.ends_with(&arguments[..length])).unwrap_or(0),
        false => 0,
    };
    let start = entries.len() - overlap;
    entries.extend(&arguments[overlap..]);
    start as u16
}

/// Writes the words of a row that its kind uses.
pub fn put_row(words: &mut [u16], row: Row) {
    let used = match row.kind {
        kind::FUNCTION => ROW,
        kind::UNIT..=kind::REAL => 1,
        _ => 2,
    };
    words[..used].copy_from_slice(&row.words()[..used]);
}
