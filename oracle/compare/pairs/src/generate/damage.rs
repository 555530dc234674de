//! Lines that are damaged: most of them are no sorts any more.

use lists::rng::Rng;

use crate::generate::sorts;
use crate::generate::spelling::padded;
use crate::generate::spelling::spaced;
use crate::generate::spelling::tokens;
use crate::sort::Sort;

const LF: u8 = b'\n';

/// Bytes that a damage is more likely to bring than others.
const LIKELY: &[u8] = b"\r\t\0\x0b\x0c\x7f\x80\xa0\xc3\xe4\xff (()#->-_.,0N8a[]'\"";

const TOKENS: [&str; 15] =
    ["Bool", "Pos", "Nat", "Int", "Real", "List", "Set", "FSet", "Bag", "FBag", "(", ")", "#", "->", "Nat"];

/// A line made from a sort and damaged.
pub fn damaged(rng: &mut Rng, sort: &Sort) -> Vec<u8> {
    match rng.below(20) {
        0..8 => {
            let line = spaced(rng, &tokens(sort));
            bytes_damaged(rng, line)
        }
        8..15 => {
            let tokens = tokens_damaged(rng, tokens(sort));
            let tokens: Vec<&str> = tokens.iter().map(String::as_str).collect();
            if rng.chance(5) { padded(rng, &tokens, 200) } else { spaced(rng, &tokens) }
        }
        15 => {
            let tokens: Vec<&str> = (0..rng.below(12)).map(|_| rng.pick(&TOKENS)).collect();
            spaced(rng, &tokens)
        }
        16 => too_many_arguments(rng),
        17 => (0..rng.below(30)).map(|_| any_byte(rng)).collect(),
        18 => vec![b' '; if rng.chance(50) { 0 } else { rng.between(1, 210) }],
        _ => {
            let line = spaced(rng, &tokens(sort));
            far_too_long(rng, line)
        }
    }
}

fn bytes_damaged(rng: &mut Rng, mut line: Vec<u8>) -> Vec<u8> {
    let at = rng.below(line.len().max(1));
    match rng.below(8) {
        0 | 1 if !line.is_empty() => line[at] = any_byte(rng),
        2 if !line.is_empty() => drop(line.remove(at)),
        3 | 4 => line.insert(at.min(line.len()), any_byte(rng)),
        5 => line.push(b'\r'),
        6 => line.truncate(at),
        _ => line.push(any_byte(rng)),
    }
    line
}

/// Any byte but LF.
fn any_byte(rng: &mut Rng) -> u8 {
    let byte = if rng.chance(50) { rng.pick(LIKELY) } else { rng.below(256) as u8 };
    if byte == LF { b'\r' } else { byte }
}

fn tokens_damaged(rng: &mut Rng, tokens: Vec<&str>) -> Vec<String> {
    let mut tokens: Vec<String> = tokens.into_iter().map(str::to_string).collect();
    let (at, other) = (rng.below(tokens.len()), rng.below(tokens.len()));
    match rng.below(12) {
        0 => tokens.swap(at, other),
        1 if at + 1 < tokens.len() => tokens.swap(at, at + 1),
        2 => drop(tokens.remove(at)),
        3 => tokens.insert(at, tokens[other].clone()),
        4 => tokens[at] = rng.pick(&TOKENS).to_string(),
        5 => tokens.insert(at, rng.pick(&TOKENS).to_string()),
        6 => replace(rng, &mut tokens, "->", &["- >", "-", ">", "#", "=>", "-->", "->>", ">-"]),
        7 => replace(rng, &mut tokens, ")", &["", "))", "]", "("]),
        8 => replace(rng, &mut tokens, "(", &["", "((", "[", ")", "()"]),
        9 => replace(rng, &mut tokens, "#", &["##", "->", "", "*", ","]),
        10 => {
            tokens.insert(0, "(".to_string());
            tokens.push(")".to_string());
        }
        _ => {
            let words: Vec<usize> = (0..tokens.len()).filter(|&at| tokens[at].len() > 2).collect();
            let at = rng.pick(&words);
            tokens[at] = misspelt(rng, &tokens[at]);
        }
    }
    tokens
}

/// Puts something else in place of one token of this kind, where there is one.
fn replace(rng: &mut Rng, tokens: &mut [String], token: &str, others: &[&str]) {
    let places: Vec<usize> = (0..tokens.len()).filter(|&at| tokens[at] == token).collect();
    if !places.is_empty() {
        tokens[rng.pick(&places)] = rng.pick(others).to_string();
    }
}

fn misspelt(rng: &mut Rng, word: &str) -> String {
    match rng.below(9) {
        0 => format!("{word}s"),
        1 => word.to_lowercase(),
        2 => word.to_uppercase(),
        3 => word[1..].to_string(),
        4 => word[..word.len() - 1].to_string(),
        5 => format!("{} {}", &word[..1], &word[1..]),
        6 => format!("{word}{}", rng.pick(&TOKENS[..10])),
        7 => format!("{word}{}", rng.below(10)),
        _ => format!("F{word}"),
    }
}

/// A function with 17 to 20 arguments, alone, as a range or in a container.
fn too_many_arguments(rng: &mut Rng) -> Vec<u8> {
    let Sort::Function(mut arguments, range) = sorts::wide(rng) else { unreachable!("a function is wide") };
    arguments.resize_with(rng.between(17, 20), || sorts::sort(rng, 1));
    let function = Sort::Function(arguments, range);
    let sort = match rng.below(3) {
        0 => function,
        1 => Sort::Function(vec![sorts::sort(rng, 1)], Box::new(function)),
        _ => sorts::contained(rng, function),
    };
    let tokens = tokens(&sort);
    if rng.chance(60) { tokens.concat().into_bytes() } else { spaced(rng, &tokens) }
}

/// Much longer than a line may be: the line and spaces, or the line over and over again.
pub fn far_too_long(rng: &mut Rng, line: Vec<u8>) -> Vec<u8> {
    let length = match rng.below(100) {
        0..60 => rng.between(201, 300),
        60..98 => rng.between(300, 1_000),
        _ => rng.between(1_000, 70_000),
    };
    match rng.below(3) {
        0 => {
            let mut line = line;
            line.resize(length.max(line.len()), b' ');
            line
        }
        1 => [vec![b' '; length], line].concat(),
        _ => [line, b" # ".to_vec()].concat().into_iter().cycle().take(length).collect(),
    }
}
