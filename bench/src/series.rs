//! Checks and interning as the number of sorts grows, and the file that keeps what a run found for a later one to draw.

use common::clock::median;
use common::times::Times;
use sorts::speed;
use sorts::speed::Grown;

use crate::sections::Asked;

/// Exponents are fitted from so many sorts on.
pub const FITTED_FROM: usize = 50;

/// Numbers of sorts, each with a time in nanoseconds.
pub type Points = Vec<(usize, f64)>;

/// What grows with the number of sorts.
pub struct What {
    /// Its name in tables, in the plot and in the file.
    pub name: &'static str,
    port: fn(&Grown) -> Option<f64>,
    rust: fn(&Grown) -> Option<f64>,
    /// The Rust's time is, or has in it, that of putting the list in.
    pub put_in: bool,
    /// Whether the libraries without an index have it too.
    pub before: bool,
}

pub const ALL: [What; 3] = [
    What {
        name: "checks",
        port: |grown| Some(grown.order.port),
        rust: |grown| Some(grown.order.loaded()),
        put_in: true,
        before: true,
    },
    What {
        name: "one interning",
        port: |grown| grown.one_interning(|times| times.port),
        rust: |grown| grown.one_interning(|times: &Times| times.merc),
        put_in: false,
        before: true,
    },
    What {
        name: "filling and clearing the index",
        port: |grown| Some(grown.join.port - grown.order.port),
        rust: |grown| Some(grown.join.load),
        put_in: true,
        before: false,
    },
];

/// What a run found.
pub struct Series {
    pub what: &'static What,
    pub port: Points,
    pub rust: Points,
}

/// What another run found of the port, and what its file says of it.
#[derive(Debug, PartialEq)]
pub struct Before {
    pub said: String,
    points: Vec<(String, usize, f64)>,
}

pub fn measured(asked: &Asked) -> Vec<Series> {
    let of_size = |sorts| {
        let lists = 0..asked.lists as u64;
        let grown =
            lists.map(|index| speed::grown(&asked.clock, asked.seed, index, sorts, asked.repeats));
        (sorts, grown.collect())
    };
    let found: Vec<(usize, Vec<Grown>)> = speed::GROWN.into_iter().map(of_size).collect();
    let series = |what: &'static What| Series {
        what,
        port: medians(&found, what.port),
        rust: medians(&found, what.rust),
    };
    ALL.iter().map(series).collect()
}

/// The median of the lists of each size that have such a time.
fn medians(found: &[(usize, Vec<Grown>)], time: fn(&Grown) -> Option<f64>) -> Points {
    let of_size = |(sorts, grown): &(usize, Vec<Grown>)| {
        let times: Vec<f64> = grown.iter().filter_map(time).collect();
        (!times.is_empty()).then(|| (*sorts, median(times)))
    };
    found.iter().filter_map(of_size).collect()
}

/// The exponent of growth: the slope of the line through the logarithms that has the least squares. None where fewer than
/// two sizes are fitted.
pub fn exponent(points: &[(usize, f64)]) -> Option<f64> {
    let fitted = points
        .iter()
        .filter(|(sorts, time)| *sorts >= FITTED_FROM && *time > 0.0);
    let logs: Vec<(f64, f64)> = fitted
        .map(|&(sorts, time)| ((sorts as f64).ln(), time.ln()))
        .collect();
    let mean =
        |value: fn(&(f64, f64)) -> f64| logs.iter().map(value).sum::<f64>() / logs.len() as f64;
    let (x, y) = (mean(|log| log.0), mean(|log| log.1));
    let sum = |value: &dyn Fn(f64, f64) -> f64| {
        logs.iter()
            .map(|log| value(log.0 - x, log.1 - y))
            .sum::<f64>()
    };
    (logs.len() > 1).then(|| sum(&|x, y| x * y) / sum(&|x, _| x * x))
}

/// The file: a line that says what run it was, then what, sorts and nanoseconds of the port, with tabs between them.
pub fn file(series: &[Series], said: &str) -> String {
    let mut text = format!("# {said}\n");
    for Series { what, port, .. } in series.iter().filter(|series| series.what.before) {
        for (sorts, time) in port {
            text += &format!("{}\t{sorts}\t{time:.2}\n", what.name);
        }
    }
    text
}

impl Before {
    pub fn read(text: &str) -> Result<Before, String> {
        let mut lines = text.lines().enumerate();
        let first = lines
            .next()
            .and_then(|(_, line)| line.strip_prefix("# "))
            .ok_or("line 1: expected `# ` and what run it was")?;
        let points = lines.map(|(index, line)| {
            point(line).ok_or_else(|| {
                format!(
                    "line {}: expected what, sorts and nanoseconds with tabs between them, found `{line}`",
                    index + 1
                )
            })
        });
        Ok(Before {
            said: first.to_string(),
            points: points.collect::<Result<_, _>>()?,
        })
    }

    /// What the run found of this.
    pub fn of(&self, what: &What) -> Points {
        let points = self.points.iter().filter(|(name, ..)| name == what.name);
        points.map(|&(_, sorts, time)| (sorts, time)).collect()
    }
}

fn point(line: &str) -> Option<(String, usize, f64)> {
    let (name, rest) = line.split_once('\t')?;
    let (sorts, time) = rest.split_once('\t')?;
    let known = ALL.iter().find(|what| what.name == name)?;
    Some((
        known.name.to_string(),
        sorts.parse().ok()?,
        time.parse().ok()?,
    ))
}

#[cfg(test)]
pub mod tests {
    use super::*;

    /// Times that grow with a power of the number of sorts; one interning has none of 6 sorts.
    pub fn of_power(power: f64) -> Vec<Series> {
        let series = |what: &'static What| {
            let sizes = speed::GROWN
                .into_iter()
                .skip(usize::from(what.name == "one interning"));
            let points: Points = sizes
                .map(|sorts| (sorts, 3.0 * (sorts as f64).powf(power)))
                .collect();
            Series {
                what,
                port: points.clone(),
                rust: points,
            }
        };
        ALL.iter().map(series).collect()
    }

    #[test]
    fn the_exponent_is_that_of_the_power() {
        for power in [0.0, 1.0, 1.5, 2.0] {
            let fitted = exponent(&of_power(power)[0].port).expect("there are sizes");
            assert!((fitted - power).abs() < 1e-9, "{fitted}");
        }
    }

    /// Worked out apart: through (50, 1), (100, 4) and (200, 4), logarithms to the base 2, the slope is (4 - 2) / 2.
    #[test]
    fn the_exponent_has_the_least_squares() {
        let points = [
            (6, 900.0),
            (25, 700.0),
            (50, 1.0),
            (100, 4.0),
            (200, 4.0),
            (400, -1.0),
        ];
        assert!((exponent(&points).expect("there are three") - 1.0).abs() < 1e-9);
        assert_eq!(exponent(&points[..3]), None);
        assert_eq!(exponent(&[]), None);
    }

    #[test]
    fn what_is_saved_is_read() {
        let before = Before::read(&file(&of_power(1.0), "A run.")).expect("it is as it is saved");
        assert_eq!(before.said, "A run.");
        assert_eq!(before.of(&ALL[0])[8], (1_000, 3_000.0));
        assert_eq!(before.of(&ALL[1])[0], (12, 36.0));
        assert_eq!(before.of(&ALL[2]), []);
    }

    #[test]
    fn other_lines_are_refused() {
        let read = |text: &str| Before::read(text).map_err(|message| message[..7].to_string());
        assert!(read("# A run.\n").is_ok_and(|before| before.of(&ALL[0]).is_empty()));
        for (text, line) in [
            ("", "line 1:"),
            ("checks\t6\t1.0\n", "line 1:"),
            ("# A run.\nchecks\t6\n", "line 2:"),
            ("# A run.\nchecks\t6\t1.0\nother\t6\t1.0\n", "line 3:"),
            ("# A run.\nchecks 6 1.0\n", "line 2:"),
            ("# A run.\nchecks\t6\t1.0\t2\n", "line 2:"),
            ("# A run.\nchecks\tsix\t1.0\n", "line 2:"),
        ] {
            assert_eq!(read(text), Err(line.to_string()), "{text:?}");
        }
    }
}
