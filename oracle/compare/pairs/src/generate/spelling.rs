//! Lines that spell a sort, with spaces of all kinds.

use lists::rng::Rng;

use crate::sort::BASIC;
use crate::sort::CONTAINERS;
use crate::sort::Sort;
use crate::sort::word_of;

/// The tokens of a sort.
pub fn tokens(sort: &Sort) -> Vec<&'static str> {
    match sort {
        Sort::Basic(kind) => vec![word_of(&BASIC, *kind).expect("a basic sort")],
        Sort::Container(kind, part) => {
            let word = word_of(&CONTAINERS, *kind).expect("a container");
            [&[word, "("], &tokens(part)[..], &[")"]].concat()
        }
        Sort::Function(arguments, range) => {
            let arguments: Vec<_> = arguments.iter().map(tokens).collect();
            [arguments.join(&"#"), vec!["->"], tokens(range)].concat()
        }
    }
}

/// The sort, written in one of the ways.
pub fn line(rng: &mut Rng, sort: &Sort) -> Vec<u8> {
    spaced(rng, &tokens(sort))
}

/// The tokens one behind the other: tidy, without spaces, or with spaces of any number.
pub fn spaced(rng: &mut Rng, tokens: &[&str]) -> Vec<u8> {
    match rng.below(10) {
        0..4 => tidy(tokens).into_bytes(),
        4..6 => tokens.concat().into_bytes(),
        6..8 => {
            let mut line = Vec::new();
            for token in tokens {
                line.extend(spaces(rng, 1));
                line.extend(token.bytes());
            }
            line.extend(spaces(rng, 1));
            line
        }
        _ => {
            let mut line = spaces(rng, 3);
            for token in tokens {
                line.extend(token.bytes());
                line.extend(spaces(rng, 3));
            }
            line
        }
    }
}

/// One space around `#` and `->`, none elsewhere.
pub fn tidy(tokens: &[&str]) -> String {
    let tidy = |token: &&str| match *token {
        "#" => " # ".to_string(),
        "->" => " -> ".to_string(),
        token => token.to_string(),
    };
    tokens.iter().map(tidy).collect()
}

fn spaces(rng: &mut Rng, most: usize) -> Vec<u8> {
    vec![b' '; rng.between(0, most)]
}

/// The sort in 197 to 203 bytes, unless it needs more.
pub fn near_limit(rng: &mut Rng, sort: &Sort) -> Vec<u8> {
    let length = match rng.chance(70) {
        true => rng.between(199, 201),
        false => rng.between(197, 203),
    };
    padded(rng, &tokens(sort), length)
}

/// The tokens in so many bytes, spaces at random places between them.
pub fn padded(rng: &mut Rng, tokens: &[&str], length: usize) -> Vec<u8> {
    let missing = length.saturating_sub(tokens.concat().len());
    let mut gaps = vec![0; tokens.len() + 1];
    let gap_count = gaps.len();
    match rng.below(3) {
        0 => gaps[0] = missing,
        1 => gaps[gap_count - 1] = missing,
        _ => (0..missing).for_each(|_| gaps[rng.below(gap_count)] += 1),
    }
    let mut line = vec![b' '; gaps[0]];
    for (token, gap) in tokens.iter().zip(&gaps[1..]) {
        line.extend(token.bytes());
        line.resize(line.len() + gap, b' ');
    }
    line
}
