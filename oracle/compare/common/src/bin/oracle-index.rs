//! Measures how many slots of the index a lookup looks at, by its formula alone: for the sorts of a list, and for sorts that it does
//! not have. Ends with status 1 where a mean of random or nested lists is 3 or more.

use std::collections::HashMap;
use std::process::ExitCode;

use common::draft::Draft;
use common::junk;
use common::options;
use common::options::Failure;
use common::options::Options;
use lists::index;
use lists::index::Index;
use lists::memory::*;
use lists::rng::Rng;
use lists::verdict::Shape;

fn main() -> ExitCode {
    options::main("oracle-index", &[("seed", "1"), ("lists", "200")], run)
}

const SIZES: [usize; 8] = [6, 16, 64, 128, 256, 512, 768, MAX_SORTS];

/// No mean of random or nested lists may come to this.
const MOST: f64 = 3.0;

/// One more sort for a list.
type Grow = fn(&mut Draft);

/// Lists by how they grow.
const FAMILIES: [(&str, Grow); 7] = [
    ("random, small sorts", |draft| draft.add(60)),
    ("random, larger sorts", |draft| draft.add(3_000)),
    ("nested containers", |draft| {
        let kind = container(draft.rng);
        draft.plain(kind, last(draft));
    }),
    ("nested List", |draft| {
        draft.plain(kind::LIST, last(draft));
    }),
    ("nested functions", |draft| {
        let basic = draft.rng.below(6) as u16;
        let (argument, range) = if draft.rng.chance(50) { (last(draft), basic) } else { (basic, last(draft)) };
        draft.function(vec![argument], range);
    }),
    ("declared sorts in turn", |draft| {
        draft.plain(kind::DEF, draft.count() as u16 - 6);
    }),
    ("declared sorts and their containers", |draft| {
        let (kind, part) = match draft.rng.below(3) {
            0 => (kind::DEF, draft.count() as u16),
            _ => (container(draft.rng), draft.any()),
        };
        draft.plain(kind, part);
    }),
];

/// Lists so regular that their places are not spread as those of others: no mean of theirs is held to the most.
const REGULAR: (&str, Grow) = ("functions of one argument, in a square", |draft| {
    let number = draft.count() as u16 - 6;
    draft.function(vec![number % 32], number / 32);
});

fn container(rng: &mut Rng) -> u16 {
    rng.between(kind::LIST.into(), kind::FBAG.into()) as u16
}

fn last(draft: &Draft) -> u16 {
    draft.count() as u16 - 1
}

/// Slots that lookups looked at.
#[derive(Default)]
struct Slots {
    lookups: usize,
    sum: usize,
    worst: usize,
    /// Of the lists that were added.
    largest_mean: f64,
}

impl Slots {
    fn add(&mut self, slots: usize) {
        self.lookups += 1;
        self.sum += slots;
        self.worst = self.worst.max(slots);
    }

    fn add_list(&mut self, list: Slots) {
        self.lookups += list.lookups;
        self.sum += list.sum;
        self.worst = self.worst.max(list.worst);
        self.largest_mean = self.largest_mean.max(list.mean());
    }

    fn mean(&self) -> f64 {
        self.sum as f64 / self.lookups.max(1) as f64
    }
}

fn run(options: &Options) -> Result<(), Failure> {
    let (seed, lists) = (options.number("seed")?, options.number("lists")?);
    println!(
        "Slots that a lookup looks at: the mean, the largest mean of one list, and the worst. {lists} lists to a row, seed {seed}.\n"
    );
    println!("| lists | sorts | there: mean | one list | worst | not there: mean | one list | worst |");
    println!("|---|---|---|---|---|---|---|---|");
    let mut most: f64 = 0.0;
    for (name, grow) in FAMILIES.into_iter().chain([REGULAR]) {
        for size in SIZES {
            let mut all = [Slots::default(), Slots::default()];
            for number in 0..lists {
                let of_list = measure(&mut Rng::of_list(seed, number), grow, size);
                all.iter_mut().zip(of_list).for_each(|(all, of_list)| all.add_list(of_list));
            }
            let columns = all
                .each_ref()
                .map(|slots| format!("{:.2} | {:.2} | {}", slots.mean(), slots.largest_mean, slots.worst));
            println!("| {name} | {size} | {} |", columns.join(" | "));
            if name != REGULAR.0 {
                most = all.iter().map(Slots::mean).fold(most, f64::max);
            }
        }
    }
    println!("\nThe largest mean is {most:.2}, but for {}.", REGULAR.0);
    if most < MOST { Ok(()) } else { Err(Failure::Run(format!("a mean is {MOST} or more"))) }
}

/// Looks for each sort of a list, and for about as many that it does not have.
fn measure(rng: &mut Rng, grow: Grow, size: usize) -> [Slots; 2] {
    let (mut there, mut not_there) = (Slots::default(), Slots::default());
    let mut draft = Draft::new(rng);
    while draft.count() < size {
        grow(&mut draft);
    }
    let sorts: Vec<Shape> = (0..size as u16).map(|number| draft.shape(number).clone()).collect();
    let mut index = Index::default();
    for (number, sort) in sorts.iter().enumerate() {
        index.enter(index::place_of(sort), number as u16);
    }
    let numbers: HashMap<&Shape, u16> = sorts.iter().zip(0..).collect();
    let look = |sort: &Shape| index.look(index::place_of(sort), |number| sorts[usize::from(number)] == *sort);
    for (sort, number) in &numbers {
        let looked = look(sort);
        assert_eq!(looked.sort, Some(*number));
        there.add(looked.slots);
    }
    for _ in 0..size {
        let sort = other(draft.rng, size);
        let looked = look(&sort);
        assert_eq!(looked.sort, numbers.get(&sort).copied());
        if looked.sort.is_none() {
            not_there.add(looked.slots);
        }
    }
    [there, not_there]
}

/// A sort such as interning looks for: mostly a container or function over sorts of the list.
fn other(rng: &mut Rng, size: usize) -> Shape {
    let mut any = || rng.below(size) as u16;
    let (part, more) = (any(), [any(), any(), any()]);
    match rng.below(10) {
        0 => Shape { kind: rng.pick(&[kind::DEF, kind::TYPE_VAR]), part: junk::word(rng), arguments: Vec::new() },
        1..=4 => Shape { kind: container(rng), part, arguments: Vec::new() },
        _ => Shape { kind: kind::FUNCTION, part, arguments: more[..rng.below(more.len() + 1)].to_vec() },
    }
}
