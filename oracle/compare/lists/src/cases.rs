//! Texts of lists: those of the oracle's generator, some of them spelt in other ways that the format allows.

use lists::generate;
use lists::generate::Class;
use lists::rng::Rng;
use lists::write::list_text;
use lists::write::question_line;

/// Each class and its share in a thousand. What an enumerated class does not have is taken from the first one.
const SHARES: [(Class, u64); 11] = [
    (Class::Solve, 250),
    (Class::Join, 150),
    (Class::Choice, 150),
    (Class::Room, 100),
    (Class::Full, 8),
    (Class::Entries, 80),
    (Class::Unify, 40),
    (Class::Lattice, 40),
    (Class::Damaged, 110),
    (Class::Small, 71),
    (Class::Pairs, 1),
];

/// How many lists class small has, and a step that goes through them in another order.
const SMALL: u64 = 517 + 517 * 517;
const STEP: u64 = 104_729;

/// The class of list `index`, by shares.
pub fn class(index: u64) -> Class {
    // A step that has no divisor in common with a thousand mixes the classes.
    let mut at = index.wrapping_mul(619) % 1_000;
    for (class, share) in SHARES {
        match at.checked_sub(share) {
            None => return class,
            Some(rest) => at = rest,
        }
    }
    unreachable!("the shares are a thousand")
}

/// The lines of list `index` with its questions, each with its LF.
pub fn text(seed: u64, index: u64) -> String {
    let rng = &mut Rng::of_list(seed ^ 0x7e47, index);
    let size = rng.pick(&[1, 2, 2, 3, 3, 3, 4, 5]);
    let class = class(index);
    let number = if class == Class::Small { index.wrapping_mul(STEP) % SMALL } else { index };
    let case = generate::case(class, seed, size, number)
        .or_else(|| generate::case(Class::Solve, seed, size, index))
        .expect("a random class has no end");
    let mut text: String =
        list_text(&case.list).split_inclusive('\n').filter(|line| !line.starts_with("ceilings")).collect();
    if rng.chance(25) {
        text = reordered(rng, &text);
    }
    let mut solves = 0;
    for &question in &case.questions {
        solves += u64::from(question == lists::question::Question::Solve);
        text.push_str(&question_line(question));
        text.push('\n');
    }
    if solves == 0 && rng.chance(60) {
        text.push_str("? solve\n");
    }
    if rng.chance(25) { dressed(rng, &text) } else { text }
}

/// Another list: the same lines, constraints in another order, and lines that stand anywhere put between others.
fn reordered(rng: &mut Rng, text: &str) -> String {
    let (mut anywhere, mut rows, mut constraints) = (Vec::new(), Vec::new(), Vec::<Vec<&str>>::new());
    for line in text.lines().skip(1) {
        match line.trim_start().split(' ').next().unwrap_or_default() {
            "expr" | "name" | "default" | "ceilings" | "count" | "lend" => anywhere.push(line),
            "sub" | "lit" | "comprehension" | "disjunction" | "join" | "constraint" => constraints.push(vec![line]),
            "overload" | "sources" if !constraints.is_empty() => {
                constraints.last_mut().expect("there is one").push(line);
            }
            _ => rows.push(line),
        }
    }
    for last in (1..constraints.len()).rev() {
        constraints.swap(last, rng.below(last + 1));
    }
    rows.extend(constraints.concat());
    let mut lines: Vec<&str> = text.lines().take(1).collect();
    let (mut anywhere, mut rows) = (anywhere.into_iter().peekable(), rows.into_iter().peekable());
    while anywhere.peek().is_some() || rows.peek().is_some() {
        let row = anywhere.peek().is_none() || rows.peek().is_some() && rng.chance(60);
        lines.extend(if row { rows.next() } else { anywhere.next() });
    }
    lines.iter().map(|line| format!("{line}\n")).collect()
}

/// The same list, spelt otherwise.
fn dressed(rng: &mut Rng, text: &str) -> String {
    let mut dressed = String::new();
    for line in text.lines() {
        if rng.chance(10) {
            dressed.push_str(&skipped(rng));
        }
        let is_title = line.starts_with("list");
        let mut spelt = if is_title { spaces(rng) + line } else { spaced(rng, line) };
        if rng.chance(3) && spelt.len() < 200 {
            spelt.push_str(&" ".repeat(200 - spelt.len()));
        }
        if spelt.len() > 200 {
            spelt = line.to_string();
        }
        dressed.push_str(&spelt);
        dressed.push('\n');
        if line.starts_with('?') && rng.chance(30) {
            dressed.push_str(&answer(rng));
        }
    }
    dressed
}

fn spaces(rng: &mut Rng) -> String {
    " ".repeat(if rng.chance(60) { 0 } else { rng.between(1, 4) })
}

fn spaced(rng: &mut Rng, line: &str) -> String {
    let mut spelt = spaces(rng);
    for word in line.split(' ').filter(|word| !word.is_empty()) {
        spelt.push_str(word);
        spelt.push(' ');
        spelt.push_str(&spaces(rng));
    }
    if rng.chance(50) { spelt.trim_end().to_string() } else { spelt }
}

/// A line that is skipped.
fn skipped(rng: &mut Rng) -> String {
    match rng.below(4) {
        0 => "\n".to_string(),
        1 => " ".repeat(rng.between(1, 210)) + "\n",
        2 => spaces(rng) + "# \u{e4}\t? solve\r\n",
        _ => format!("#{}\n", "x".repeat(rng.between(0, 500))),
    }
}

/// A recorded answer, right or not: it is passed over.
fn answer(rng: &mut Rng) -> String {
    match rng.below(4) {
        0 => "= 17\n".to_string(),
        1 => "\n  = 0 sorts Nat\n".to_string(),
        2 => format!("= 0 names {}\n", "none ".repeat(rng.between(30, 300))),
        _ => "= what it may say\n= 0\n".to_string(),
    }
}
