//! What is asked: questions about sorts, unify, and lists for the solver by kind, by class and size, and as one thing grows.

use common::clock::Clock;
use common::junk::Junk;
use common::times::Times;
use lists::generate;
use lists::rng::Rng;
use solve::call::Call;
use solve::cases::Cases;
use solve::cases::Class;
use solve::cases::Grown;
use solve::cases::Timed;
use solve::layout::More;
use solve::layout::laid_out;

/// How often.
pub struct Asked {
    pub clock: Clock,
    pub seed: u64,
    /// Lists or questions to a row.
    pub lists: usize,
    /// Calls of each.
    pub repeats: usize,
}

/// A row of a table.
pub struct Row {
    pub name: String,
    pub times: Vec<Times>,
}

pub struct Table {
    pub title: &'static str,
    pub about: &'static str,
    pub rows: Vec<Row>,
}

/// What grows, and a row for each of its sizes.
pub struct Growth {
    pub name: &'static str,
    pub sizes: Vec<(usize, Row)>,
}

pub fn tables(asked: &Asked) -> Vec<Table> {
    vec![
        Table {
            title: "Sorts",
            about: "Order, join and meet of two sorts of a list. The checks look at the whole list in every call.",
            rows: lattice(asked),
        },
        Table {
            title: "Unify",
            about: "Two places of a list. Check 7 makes rounds until all variables are settled, at most as many as there are.",
            rows: unify(asked),
        },
        Table {
            title: "Lists of one kind",
            about: "Short ones, choices that a later component tells apart, and lists at the ceilings.",
            rows: kinds(asked),
        },
        Table {
            title: "Lists by class and size",
            about: "The random classes of the comparison; the size is that of `oracle-gen`.",
            rows: classes(asked),
        },
    ]
}

fn lattice(asked: &Asked) -> Vec<Row> {
    let mut rows = Vec::new();
    for (sorts, _) in sorts::speed::SIZES {
        for kind in sorts::speed::KINDS {
            let times = sorts::speed::times(
                &asked.clock,
                asked.seed,
                sorts,
                asked.lists,
                asked.repeats,
                kind,
            );
            rows.push(Row {
                name: format!("{}, {sorts} sorts", kind.name),
                times,
            });
        }
    }
    rows
}

fn unify(asked: &Asked) -> Vec<Row> {
    let row = |timed: unify::cases::Timed| {
        let cases = (0..asked.lists as u64).map(|index| timed.case(asked.seed, index));
        let times = cases
            .map(|(memory, pair)| unify::speed::times(&asked.clock, &memory, pair, asked.repeats));
        Row {
            name: timed.name(),
            times: times.collect(),
        }
    };
    unify::cases::Timed::ALL.into_iter().map(row).collect()
}

/// The first lists whose search ends.
fn lists(asked: &Asked, name: String, call: impl Fn(u64) -> Call) -> Row {
    let calls = (0..).map(call).filter(solve::speed::ends).take(asked.lists);
    Row {
        name,
        times: calls
            .map(|call| solve::speed::times(&asked.clock, &call, asked.repeats))
            .collect(),
    }
}

fn kinds(asked: &Asked) -> Vec<Row> {
    let junk = Junk::new(asked.seed);
    let row = |(timed, name): (Timed, &str)| {
        lists(asked, name.to_string(), |index| {
            timed.call(&junk, asked.seed, index)
        })
    };
    Timed::ALL.into_iter().map(row).collect()
}

fn classes(asked: &Asked) -> Vec<Row> {
    let junk = Junk::new(asked.seed);
    let mut rows = Vec::new();
    for class in [
        generate::Class::Solve,
        generate::Class::Join,
        generate::Class::Choice,
    ] {
        for size in [1, 3, 5] {
            rows.push(lists(
                asked,
                format!("{}, size {size}", class.name()),
                |index| {
                    let case = generate::case(class, asked.seed, size, index)
                        .expect("a random class has no end");
                    laid_out(
                        &mut Rng::of_list(asked.seed, index),
                        &junk,
                        &case.list,
                        More::Exact,
                    )
                },
            ));
        }
    }
    for class in [Class::Small, Class::Dropped, Class::Large, Class::Deep] {
        let cases = Cases::new(class, asked.seed);
        rows.push(lists(asked, class.name().to_string(), |index| {
            cases.case(index).expect("there are so many").call
        }));
    }
    rows
}

pub fn growth(asked: &Asked) -> Vec<Growth> {
    let junk = Junk::new(asked.seed);
    let grown = |(grown, name, sizes): (Grown, &'static str, [usize; 6])| Growth {
        name,
        sizes: sizes
            .into_iter()
            .map(|size| {
                let row = lists(asked, size.to_string(), |index| {
                    grown.call(&junk, asked.seed, index, size)
                });
                (size, row)
            })
            .collect(),
    };
    Grown::ALL.into_iter().map(grown).collect()
}
