//! What was found, as docs/BENCH.md.

use common::clock::median;
use common::times::Times;
use common::times::number;
use common::times::worst;
use lists::memory::MAX_ARGUMENTS;
use sorts::speed::GROWN;
use sorts::speed::INTERNED;

use crate::count::Count;
use crate::machine;
use crate::sections::Asked;
use crate::sections::Growth;
use crate::sections::Row;
use crate::sections::Table;
use crate::series::Before;
use crate::series::FITTED_FROM;
use crate::series::Points;
use crate::series::Series;
use crate::series::exponent;

/// What no run of the bench measures: why, and times of the programs.
const NOTES: &str = include_str!("../notes.md");

pub fn report(
    asked: &Asked,
    others: f64,
    tables: &[Table],
    growth: &[Growth],
    series: &[Series],
    before: Option<&Before>,
    counts: &[Count],
) -> String {
    let mut text = head(asked, others, tables);
    for table in tables {
        text += &section(table.title, table.about, "what", table.rows.iter());
    }
    for growth in growth {
        let rows = growth.sizes.iter().map(|(_, row)| row);
        text += &section(
            &format!("Growth with {}", growth.name),
            &grows(growth),
            growth.name,
            rows,
        );
    }
    text + &sorts(series, before) + &instructions(counts) + NOTES
}

/// What a run was, in one line.
pub fn run(asked: &Asked, others: f64) -> String {
    format!(
        "On {}, with {}; {} lists of each size, each asked {} times. Other work took {others:.2} of a core.",
        machine::processor(),
        machine::toolchain(),
        asked.lists,
        asked.repeats
    )
}

/// Checks and interning as the number of sorts grows.
fn sorts(series: &[Series], before: Option<&Before>) -> String {
    let functions = MAX_ARGUMENTS + 1;
    let mut text = format!(
        "\n## Checks and interning by the number of sorts

The second row of panels in the plot. Times are nanoseconds, medians of the lists of a size.

- **Checks**: the order of Pos and Nat, which is the checks of the whole list and next to nothing more. Of these it is check 4, that no two
  sorts are equal, that compared every row with every other before, and now enters the rows into an index of its own. Beside it merc with the list
  put in, which finds out the same.
- **One interning**: what the join of two functions takes more than that of Pos and Nat over the same list, which has the same checks and
  fills the index as well, divided by the {INTERNED} sorts that it interns. All of them are in the list: {containers} times a Set, of up to {MAX_ARGUMENTS} in turn
  that are in the middle of the list on average, and {functions} times a function of {MAX_ARGUMENTS} arguments. On both sides the step to the sort that is
  interned is in it, since no entry interns alone. A list of the fixed six has no such join.
- **Filling and clearing the index**: what the join of Pos and Nat takes more than their order, in each call. Beside it what putting the list in
  takes, which fills merc's table. Before there was no index.

",
        containers = INTERNED - functions,
    );
    text += &match before {
        Some(before) => format!(
            "\"Before\" are the libraries that had no index, those of commit 346d736b, in another run of this program (`bench/before-c14.tsv`). {}\n\n",
            before.said
        ),
        None => "There are no times of the libraries that had no index.\n\n".to_string(),
    };
    text + &exponents(series, before) + &sizes(series, before)
}

fn rust_name(series: &Series) -> &'static str {
    match series.what.put_in {
        true => "Rust, list put in",
        false => "Rust",
    }
}

fn points_before(series: &Series, before: Option<&Before>) -> Points {
    before.map_or(Points::new(), |before| before.of(series.what))
}

fn exponents(series: &[Series], before: Option<&Before>) -> String {
    let mut text = format!(
        "Growth in sorts: exponent, the slope of the line through the logarithms that has the least squares, from {FITTED_FROM} sorts on. 0 is flat, 1 \
         linear, 2 quadratic.\n
| what | port | port before C-14 | Rust | which is |\n|---|---|---|---|---|\n"
    );
    for series in series {
        let fitted = |points: &Points| exponent(points).map_or("–".to_string(), number);
        text += &format!(
            "| {} | **{}** | {} | {} | {} |\n",
            series.what.name,
            fitted(&series.port),
            fitted(&points_before(series, before)),
            fitted(&series.rust),
            rust_name(series)
        );
    }
    text
}

/// A row for each number of sorts.
fn sizes(series: &[Series], before: Option<&Before>) -> String {
    let mut columns: Vec<(String, Points)> = Vec::new();
    for series in series {
        columns.push((
            format!("{}: port ns", series.what.name),
            series.port.clone(),
        ));
        if series.what.before {
            columns.push(("before ns".to_string(), points_before(series, before)));
        }
        columns.push((format!("{} ns", rust_name(series)), series.rust.clone()));
    }
    let names: Vec<&str> = columns.iter().map(|(name, _)| name.as_str()).collect();
    let mut text = format!(
        "\n| sorts | {} |\n|{}\n",
        names.join(" | "),
        "---|".repeat(columns.len() + 1)
    );
    for sorts in GROWN {
        let time = |points: &Points| {
            let point = points.iter().find(|(size, _)| *size == sorts);
            point.map_or("–".to_string(), |&(_, time)| number(time))
        };
        let cells: Vec<String> = columns.iter().map(|(_, points)| time(points)).collect();
        text += &format!("| {sorts} | {} |\n", cells.join(" | "));
    }
    text
}

fn head(asked: &Asked, others: f64, tables: &[Table]) -> String {
    let machine = match others > machine::QUIET {
        true => format!(
            "**Other work took {others:.2} of a core during the run: the ratios are not to be relied on.**"
        ),
        false => format!("Other work took {others:.2} of a core during the run."),
    };
    format!(
        "# Speed beside merc

Written by `bench/run.sh`, tables and plot (`bench.svg`) alike. On {}, one core. {machine} The libraries are those of {}.

The proved libraries and the plain excerpt of merc (release, without debug assertions and overflow checks, as merc is built for
use) are linked into one program, which asks both the same inputs and times each call alone. A row has {} inputs, each
asked {} times; of an input the mean of the middle half is taken, and the row tells the median and the worst of the ratios. Of the
solver it is `sort_solve` that is asked, on lists whose search ends, and its answer is held to the excerpt's.

In the port's time are its checks of all that it is given, in every call, where sorts may be made the filling and clearing of the index
(4 KB), and after a search the clearing of scratch (8 KB) and of all node storage past the given rows (up to 24 KB). Not in it: filling the buffers before the call. In merc's time is the call alone; it
checks and clears nothing, and what it made is dropped after the time. \"List put in\" is merc with its arenas filled
from the same words in the time, which is what a call costs there from the same input.

{}
![growth with sorts, constraints and overloads, checks and interning by the number of sorts, and all ratios](bench.svg)
",
        machine::processor(),
        machine::toolchain(),
        asked.lists,
        asked.repeats,
        tables.iter().map(summary).collect::<String>()
    )
}

fn told(rows: &[Row], value: fn(&Times) -> f64) -> (f64, f64) {
    let medians = rows.iter().map(|row| median_of(row, value));
    medians.fold((f64::MAX, f64::MIN), |(least, most), value| {
        (least.min(value), most.max(value))
    })
}

fn median_of(row: &Row, value: fn(&Times) -> f64) -> f64 {
    median(row.times.iter().map(value).collect())
}

fn summary(table: &Table) -> String {
    let (least, most) = told(&table.rows, Times::ratio);
    let (least_loaded, most_loaded) = told(&table.rows, Times::loaded_ratio);
    format!(
        "- {}: port / Rust {} to {}, with the list put in {} to {}.\n",
        table.title,
        number(least),
        number(most),
        number(least_loaded),
        number(most_loaded)
    )
}

fn grows(growth: &Growth) -> String {
    let (Some((first, small)), Some((last, large))) = (growth.sizes.first(), growth.sizes.last())
    else {
        return String::new();
    };
    let times =
        |value: fn(&Times) -> f64| number(median_of(large, value) / median_of(small, value));
    format!(
        "From {first} to {last} the port's time grows by a factor of {}, merc's of {}, with the list put in of {}.",
        times(|times| times.port),
        times(|times| times.merc),
        times(Times::loaded)
    )
}

fn section<'a>(
    title: &str,
    about: &str,
    what: &str,
    rows: impl Iterator<Item = &'a Row>,
) -> String {
    let mut text = format!(
        "\n## {title}\n\n{about}\n
| {what} | inputs | port / Rust | worst | port / Rust, list put in | worst | checks, of the port's time | port ns | Rust ns |
|---|---|---|---|---|---|---|---|---|\n"
    );
    for row in rows {
        let all = |value: fn(&Times) -> f64| row.times.iter().map(value).collect::<Vec<f64>>();
        text += &format!(
            "| {} | {} | **{}** | {} | **{}** | {} | {:.0} % | {} | {} |\n",
            row.name,
            row.times.len(),
            number(median(all(Times::ratio))),
            number(worst(all(Times::ratio))),
            number(median(all(Times::loaded_ratio))),
            number(worst(all(Times::loaded_ratio))),
            median(all(|times| 100.0 * times.checks / times.port)),
            number(median(all(|times| times.port))),
            number(median(all(|times| times.merc)))
        );
    }
    text
}

fn instructions(counts: &[Count]) -> String {
    let mut text = "\n## Instructions\n
Of one call, counted by callgrind, which no other work disturbs. The C library clears and copies by vector instructions here,
since of the repeated ones callgrind counts one for each byte.\n\n"
        .to_string();
    if counts.is_empty() {
        return text + "Not counted: valgrind was not there.\n";
    }
    text += "| list | constraints | variables | port | its checks | Rust | port / Rust | Rust, list put in | port / that |\n";
    text += "|---|---|---|---|---|---|---|---|---|\n";
    for count in counts {
        let loaded = count.merc + count.load;
        text += &format!(
            "| {} | {} | {} | {} | {} | {} | **{}** | {} | **{}** |\n",
            count.name,
            count.constraints,
            count.variables,
            number(count.port as f64),
            number(count.checks as f64),
            number(count.merc as f64),
            number(count.port as f64 / count.merc as f64),
            number(loaded as f64),
            number(count.port as f64 / loaded as f64)
        );
    }
    text
}

#[cfg(test)]
mod tests {
    use super::*;
    use crate::series;
    use crate::series::tests::of_power;

    #[test]
    fn the_growth_in_sorts_is_said() {
        let before =
            Before::read(&series::file(&of_power(2.0), "On a machine.")).expect("as saved");
        let text = sorts(&of_power(1.0), Some(&before));
        for part in [
            "(`bench/before-c14.tsv`). On a machine.\n",
            "| checks | **1.00** | 2.00 | 1.00 | Rust, list put in |\n",
            "| one interning | **1.00** | 2.00 | 1.00 | Rust |\n",
            "| filling and clearing the index | **1.00** | – | 1.00 | Rust, list put in |\n",
            "\n| 6 | 18 | 108 | 18 | – | – | – | 18 | 18 |\n",
            "\n| 1000 | 3,000 | 3,000,000 | 3,000 | 3,000 | 3,000,000 | 3,000 | 3,000 | 3,000 |\n",
        ] {
            assert!(text.contains(part), "{part}: {text}");
        }
    }

    #[test]
    fn nothing_is_said_of_before_where_there_is_no_file() {
        let text = sorts(&of_power(1.0), None);
        assert!(text.contains("There are no times"));
        assert!(text.contains("| checks | **1.00** | – | 1.00 | Rust, list put in |\n"));
        assert!(!text.contains("346d736b"));
    }
}
