//! What calls take on both sides, in nanoseconds, and what a table says of it.

use crate::clock::median;

/// The times of one question.
#[derive(Clone, Copy)]
pub struct Times {
    pub port: f64,
    /// A call of the port that is nothing but its checks.
    pub checks: f64,
    pub merc: f64,
    /// Putting the list into merc.
    pub load: f64,
}

impl Times {
    pub fn ratio(&self) -> f64 {
        self.port / self.merc
    }

    /// What the same call costs in merc from the same words.
    pub fn loaded(&self) -> f64 {
        self.merc + self.load
    }

    pub fn loaded_ratio(&self) -> f64 {
        self.port / self.loaded()
    }
}

/// What a table says of questions, and how much of a value is told: the median or the greatest.
type Column = (&'static str, fn(&Times) -> f64, fn(Vec<f64>) -> f64);

const COLUMNS: [Column; 9] = [
    ("port ns", |times| times.port, median),
    ("its checks ns", |times| times.checks, median),
    ("port less checks ns", |times| times.port - times.checks, median),
    ("Rust ns", |times| times.merc, median),
    ("port / Rust", Times::ratio, median),
    ("worst", Times::ratio, worst),
    ("Rust with the list put in ns", Times::loaded, median),
    ("port / that", Times::loaded_ratio, median),
    ("worst of these", Times::loaded_ratio, worst),
];

pub fn worst(values: Vec<f64>) -> f64 {
    values.into_iter().fold(f64::MIN, f64::max)
}

/// The head of a table, after columns of its own.
pub fn head(own: &str) -> String {
    let own_columns = own.matches(" | ").count() + 1;
    let names = COLUMNS.map(|(name, ..)| name).join(" | ");
    format!("| {own} | {names} |\n|{}", "---|".repeat(own_columns + COLUMNS.len()))
}

/// The cells of a row, after those of its own.
pub fn row(own: &str, times: &[Times]) -> String {
    let cell = |(_, value, told): Column| number(told(times.iter().map(value).collect()));
    format!("| {own} | {} |", COLUMNS.map(cell).join(" | "))
}

/// Two places after the point where there are few before it; a comma between thousands.
pub fn number(value: f64) -> String {
    if value.abs() < 10.0 {
        return format!("{value:.2}");
    }
    let digits = format!("{value:.0}");
    let mut text = String::new();
    for (index, digit) in digits.chars().enumerate() {
        if index > 0 && (digits.len() - index) % 3 == 0 && !text.ends_with('-') {
            text.push(',');
        }
        text.push(digit);
    }
    text
}
