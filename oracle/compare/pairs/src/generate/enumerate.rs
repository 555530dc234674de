//! All small cases: every two small sorts, every short row of tokens.

use crate::generate::spelling::tidy;
use crate::generate::spelling::tokens;
use crate::sort::BASIC;
use crate::sort::CONTAINERS;
use crate::sort::Sort;

/// A known word of each kind, an unknown one, the other tokens, and a byte that starts none.
const TOKENS: [&str; 8] = ["Nat", "Set", "Foo", "(", ")", "#", "->", "-"];
const LONGEST_ROW: u32 = 5;

/// Every two of the basic sorts, the containers one or two deep over these, and the functions of one to another,
/// tidily written, as two lines.
pub fn small_pairs() -> Vec<Vec<u8>> {
    let texts: Vec<String> = small_sorts().iter().map(|sort| tidy(&tokens(sort))).collect();
    let pair = |index: usize| format!("{}\n{}\n", texts[index / texts.len()], texts[index % texts.len()]).into_bytes();
    (0..texts.len() * texts.len()).map(pair).collect()
}

fn small_sorts() -> Vec<Sort> {
    let basic: Vec<Sort> = BASIC.iter().map(|&(_, kind)| Sort::Basic(kind)).collect();
    let over = |parts: &[Sort]| -> Vec<Sort> {
        let container = |kind, part: &Sort| Sort::Container(kind, Box::new(part.clone()));
        CONTAINERS.iter().flat_map(|&(_, kind)| parts.iter().map(move |part| container(kind, part))).collect()
    };
    let functions = basic
        .iter()
        .flat_map(|argument| basic.iter().map(|range| Sort::Function(vec![argument.clone()], Box::new(range.clone()))));
    let functions = functions.collect();
    let once = over(&basic);
    let twice = over(&once);
    [basic, once, twice, functions].concat()
}

/// Every row of up to five tokens, with spaces between them, once as a first and once as a second line.
pub fn token_rows() -> Vec<Vec<u8>> {
    let row = |length: u32, number: usize| {
        let digits = (0..length).map(move |place| number / TOKENS.len().pow(place) % TOKENS.len());
        digits.map(|digit| TOKENS[digit]).collect::<Vec<_>>().join(" ")
    };
    let rows =
        (0..=LONGEST_ROW).flat_map(move |length| (0..TOKENS.len().pow(length)).map(move |number| row(length, number)));
    rows.flat_map(|row| [format!("{row}\nNat\n").into_bytes(), format!("Nat\n{row}\n").into_bytes()]).collect()
}
