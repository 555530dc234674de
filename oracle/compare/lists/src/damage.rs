//! Damaged texts: the lines of a list, changed in one to four ways.

use lists::rng::Rng;

use crate::cases;

/// Bytes that a damage is more likely to bring than others.
const LIKELY: &[u8] = b"\0\t\r\n\x0b\x1f\x7f\x80\xa0\xc3\xff  #=?-_>019snve";

/// Words that stand in lines of the format, and some that nearly do.
const WORDS: &[&str] = &[
    "list",
    "sort",
    "var",
    "vars",
    "bind",
    "node",
    "expr",
    "name",
    "default",
    "sub",
    "lit",
    "comprehension",
    "disjunction",
    "overload",
    "join",
    "sources",
    "bare",
    "entries",
    "node-entries",
    "constraint",
    "pad",
    "count",
    "lend",
    "ceilings",
    "?",
    "=",
    "solve",
    "unify",
    "meet",
    "partial_cmp",
    "unit",
    "Bool",
    "Pos",
    "Nat",
    "Int",
    "Real",
    "List",
    "Set",
    "FSet",
    "Bag",
    "FBag",
    "fn",
    "->",
    "Def",
    "TypeVar",
    "raw",
    "variable",
    "builtin",
    "op",
    "positive",
    "natural",
    "sorts",
    "nodes",
    "exprs",
    "names",
    "constraints",
    "overloads",
    "bindings",
    "scratch",
    "index",
    "out-typing",
    "out-measure",
    "out-choices",
    "nat",
    "Lists",
    "->>",
    "-",
    "#",
    "=0",
    "?solve",
    "lists",
    "s",
    "n",
    "v",
    "e",
];

/// Numbers at the edges of what lists may have, and some that are none.
const NUMBERS: &[&str] = &[
    "0",
    "1",
    "2",
    "3",
    "4",
    "5",
    "6",
    "7",
    "8",
    "12",
    "14",
    "15",
    "16",
    "17",
    "255",
    "256",
    "257",
    "511",
    "512",
    "513",
    "1017",
    "1018",
    "1023",
    "1024",
    "1025",
    "2047",
    "2048",
    "4095",
    "4096",
    "4097",
    "8191",
    "8192",
    "12287",
    "12288",
    "64511",
    "64512",
    "65534",
    "65535",
    "65536",
    "65541",
    "99999",
    "100000",
    "00",
    "01",
    "06",
    "007",
    "-1",
    "+1",
    "1.0",
    "4294967296",
    "4294967302",
    "18446744073709551616",
    "18446744073709551622",
    "0x6",
    "",
];

/// Whole lines.
const LINES: &[&str] = &[
    "? solve",
    "? unify n0 Nat",
    "? join Nat Pos",
    "? meet",
    "? guess",
    "= 0",
    "=",
    "= 17 new",
    "list",
    "list again",
    "  list  ",
    "bare",
    "# list",
    "",
    "ceilings 6 0 0 0",
    "ceilings 6 0 0",
    "pad sorts 3",
    "pad nodes 2",
    "pad entries 9",
    "vars 1",
    "vars 0",
    "vars 65535",
    "pad sorts 65535",
    "default Nat",
    "default s6",
    "sub Nat Pos",
    "sub Pos Nat",
    "lit n0 natural",
    "lit n0 positive",
    "join Nat",
    "join n0 Pos Nat",
    "sources Nat Nat",
    "overload op Nat n0",
    "overload variable Bool",
    "disjunction e0 n0",
    "comprehension n0 n1 Nat",
    "constraint 0 2 3 9 9",
    "name e0 variable",
    "name e0 op Nat",
    "name e0 raw 3 9",
    "bind v0 Nat",
    "bind v0 n0",
    "bind v0 n64511",
    "count exprs 1",
    "count names 0",
    "count constraints 0",
    "lend scratch 4095",
    "lend index 2047",
    "lend out-typing 0",
    "lend names 65535",
    "lend constraints 65535",
    "entries 1 2",
    "node-entries 1024",
];

/// Text `index`: a list's lines, damaged.
pub fn text(seed: u64, index: u64) -> Vec<u8> {
    let rng = &mut Rng::of_list(seed ^ 0xda3a, index);
    if rng.below(2_000) == 0 {
        return Vec::new();
    }
    let mut lines = list(rng, seed);
    if rng.chance(6) {
        lines = interleaved(rng, lines, seed);
    }
    for _ in 0..rng.pick(&[1, 1, 1, 1, 2, 2, 3]) {
        damage(rng, &mut lines);
    }
    let mut text = lines.join(&b'\n');
    if !rng.chance(3) {
        text.push(b'\n');
    }
    text
}

/// The lines of a random list. Those of many lines or questions are left out.
fn list(rng: &mut Rng, seed: u64) -> Vec<Vec<u8>> {
    loop {
        let text = cases::text(seed, rng.below(1 << 30) as u64);
        let lines: Vec<Vec<u8>> = text.lines().map(|line| line.as_bytes().to_vec()).collect();
        if lines.len() <= 200 {
            return lines;
        }
    }
}

/// Lines of two lists, each in its order.
fn interleaved(rng: &mut Rng, first: Vec<Vec<u8>>, seed: u64) -> Vec<Vec<u8>> {
    let (mut first, mut second) = (first.into_iter().peekable(), list(rng, seed).into_iter().peekable());
    let mut lines = Vec::new();
    while first.peek().is_some() || second.peek().is_some() {
        let from_first = second.peek().is_none() || first.peek().is_some() && rng.chance(70);
        lines.extend(if from_first { first.next() } else { second.next() });
    }
    lines
}

fn damage(rng: &mut Rng, lines: &mut Vec<Vec<u8>>) {
    if lines.is_empty() {
        return lines.push(rng.pick(LINES).into());
    }
    let at = rng.below(lines.len());
    match rng.below(100) {
        0..12 => bytes(rng, &mut lines[at]),
        12..28 => words(rng, lines, at),
        28..60 => alike(rng, &mut lines[at]),
        60..66 => number(rng, &mut lines[at]),
        66..73 => longer(rng, &mut lines[at]),
        73..86 => whole(rng, lines, at),
        86..98 => lines.insert(at + rng.below(2), rng.pick(LINES).into()),
        _ => names(rng, lines, at),
    }
}

fn bytes(rng: &mut Rng, line: &mut Vec<u8>) {
    let at = rng.below(line.len() + 1);
    match rng.below(7) {
        0 | 1 if at < line.len() => line[at] = any_byte(rng),
        2 if at < line.len() => drop(line.remove(at)),
        3 | 4 => line.insert(at, any_byte(rng)),
        5 => line.truncate(at),
        _ => line.push(any_byte(rng)),
    }
}

fn any_byte(rng: &mut Rng) -> u8 {
    if rng.chance(60) { rng.pick(LIKELY) } else { rng.below(256) as u8 }
}

fn split(line: &[u8]) -> Vec<Vec<u8>> {
    line.split(|&byte| byte == b' ').filter(|word| !word.is_empty()).map(<[u8]>::to_vec).collect()
}

fn any_word(rng: &mut Rng) -> Vec<u8> {
    match rng.below(10) {
        0..4 => rng.pick(WORDS).into(),
        4 | 5 => rng.pick(NUMBERS).into(),
        6 | 7 => format!("{}{}", rng.pick(&['s', 'n', 'v', 'e']), rng.below(9)).into(),
        _ => format!("{}{}", rng.pick(&['s', 'n', 'v', 'e']), rng.pick(NUMBERS)).into(),
    }
}

/// A word dropped, doubled, exchanged with another, or replaced.
fn words(rng: &mut Rng, lines: &mut [Vec<u8>], at: usize) {
    let mut words = split(&lines[at]);
    if words.is_empty() {
        words.push(any_word(rng));
    }
    let word = rng.below(words.len());
    match rng.below(12) {
        0 | 1 => drop(words.remove(word)),
        2 => words.insert(word, words[word].clone()),
        3 => {
            let other = rng.below(words.len());
            words.swap(word, other);
        }
        4 | 5 => {
            let other = rng.below(lines.len());
            let mut others = split(&lines[other]);
            if other != at && !others.is_empty() {
                let with = rng.below(others.len());
                std::mem::swap(&mut words[word], &mut others[with]);
                lines[other] = others.join(&b' ');
            }
        }
        6..10 => words[word] = any_word(rng),
        10 => words.insert(word, any_word(rng)),
        _ => words.push(any_word(rng)),
    }
    lines[at] = words.join(&b' ');
}

/// Words that may stand for each other. Places and numbers are made.
const ALIKE: &[&[&str]] = &[
    &["unit", "Bool", "Pos", "Nat", "Int", "Real"],
    &["List", "Set", "FSet", "Bag", "FBag"],
    &["variable", "builtin"],
    &["positive", "natural"],
    &["sub", "join"],
    &["Def", "TypeVar"],
];

/// A word replaced by one of its kind, but for the names of new rows: most lines stay of the format.
fn alike(rng: &mut Rng, line: &mut Vec<u8>) {
    let mut words = split(line);
    let makes_a_row = words.first().is_some_and(|word| [&b"sort"[..], b"node", b"var", b"expr"].contains(&&word[..]));
    let first = if makes_a_row { 2 } else { 0 };
    if words.len() <= first {
        return;
    }
    let word = &mut words[first..];
    let word = &mut word[rng.below(word.len())];
    if let Some(others) = ALIKE.iter().find(|others| others.iter().any(|other| other.as_bytes() == &word[..])) {
        *word = rng.pick(others).into();
        if rng.chance(30) && others.len() == 6 {
            *word = format!("n{}", rng.below(6)).into();
        }
    } else if word.len() < 4 && word[0].is_ascii_lowercase() && word.last().is_some_and(u8::is_ascii_digit) {
        let letter = if rng.chance(15) { rng.pick(b"snve") } else { word[0] };
        *word = format!("{}{}", letter as char, rng.below(10)).into();
    } else if word.iter().all(u8::is_ascii_digit) {
        *word = rng.below(12).to_string().into();
    }
    *line = words.join(&b' ');
}

/// The number in a word changed.
fn number(rng: &mut Rng, line: &mut Vec<u8>) {
    let mut words = split(line);
    let numbered: Vec<usize> =
        (0..words.len()).filter(|&index| words[index].last().is_some_and(u8::is_ascii_digit)).collect();
    if numbered.is_empty() {
        return;
    }
    let word = &mut words[numbered[rng.below(numbered.len())]];
    while word.last().is_some_and(u8::is_ascii_digit) {
        word.pop();
    }
    match rng.chance(50) {
        true => word.extend_from_slice(rng.pick(NUMBERS).as_bytes()),
        false => word.extend_from_slice(rng.below(12).to_string().as_bytes()),
    }
    *line = words.join(&b' ');
}

/// A line made longer: by spaces or other bytes, up to about 200 bytes or far above.
fn longer(rng: &mut Rng, line: &mut Vec<u8>) {
    let length = match rng.below(100) {
        0..75 => rng.between(197, 205),
        75..90 => rng.between(206, 500),
        90..99 => rng.between(501, 5_000),
        _ => rng.between(60_000, 140_000),
    };
    let more = length.saturating_sub(line.len());
    let byte = if rng.chance(70) { b' ' } else { any_byte(rng) };
    match rng.below(4) {
        0 => drop(line.splice(0..0, vec![byte; more])),
        1 => {
            let at = line.iter().position(|&byte| byte == b' ').unwrap_or(0);
            line.splice(at..at, vec![byte; more]);
        }
        _ => line.extend(vec![byte; more]),
    }
    if rng.chance(20) {
        bytes(rng, line);
    }
}

/// Lines dropped, doubled, exchanged, moved, joined, parted.
fn whole(rng: &mut Rng, lines: &mut Vec<Vec<u8>>, at: usize) {
    let other = rng.below(lines.len());
    match rng.below(9) {
        0 | 1 => drop(lines.remove(at)),
        2 => lines.insert(other, lines[at].clone()),
        3 => lines.swap(at, other),
        4 => {
            let line = lines.remove(at);
            lines.insert(other.min(lines.len()), line);
        }
        5 if at + 1 < lines.len() => {
            let next = lines.remove(at + 1);
            lines[at].extend(next);
        }
        6 => {
            let byte = rng.below(lines[at].len() + 1);
            let rest = lines[at].split_off(byte);
            lines.insert(at + 1, rest);
        }
        7 => lines.truncate(at),
        _ => lines[at].push(b'\r'),
    }
}

/// Many base names, about as many as the program holds.
fn names(rng: &mut Rng, lines: &mut Vec<Vec<u8>>, at: usize) {
    let count = if rng.chance(20) { rng.between(510, 514) } else { rng.between(1, 20) };
    let name = |number: usize| match number % 3 {
        0 => format!("name e{number} variable").into_bytes(),
        1 => format!("name e{number} builtin").into_bytes(),
        _ => format!("name e{number} op Nat").into_bytes(),
    };
    lines.splice(at..at, (0..count).map(name));
}
