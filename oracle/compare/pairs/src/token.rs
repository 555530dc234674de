//! The tokens of a line: a longest run of letters, `(`, `)`, `#`, `->`.

use crate::fault::Fault;
use crate::sort::BASIC;
use crate::sort::CONTAINERS;

#[derive(Clone, Copy, Debug, Eq, PartialEq)]
pub enum Token<'a> {
    Word(&'a [u8]),
    Open,
    Close,
    Hash,
    Arrow,
    /// A byte that starts no token. It counts as one that cannot follow.
    Stray,
    /// The end of the line.
    End,
}

/// The first token at or after a position, with where it starts and where it ends.
pub fn token(line: &[u8], from: usize, fault: Option<Fault>) -> (Token<'_>, usize, usize) {
    let is_space = |&byte: &u8| byte == b' ' || byte == b'\t' && fault == Some(Fault::TabIsSpace);
    let start = from + line[from..].iter().take_while(|byte| is_space(byte)).count();
    let rest = &line[start..];
    let (token, length) = match rest {
        [] => (Token::End, 0),
        [b'(', ..] => (Token::Open, 1),
        [b')', ..] => (Token::Close, 1),
        [b'#', ..] => (Token::Hash, 1),
        [b'-', b'>', ..] => (Token::Arrow, 2),
        _ => match word_length(rest, fault) {
            0 => (Token::Stray, 1),
            length => (Token::Word(&rest[..length]), length),
        },
    };
    (token, start, start + length)
}

fn word_length(rest: &[u8], fault: Option<Fault>) -> usize {
    let is_letter = |byte: &u8| byte.is_ascii_alphabetic() || *byte > 127 && fault == Some(Fault::HighLetters);
    let run = rest.iter().take_while(|byte| is_letter(byte)).count();
    if fault == Some(Fault::KnownWordEnds) {
        let mut known = BASIC.iter().chain(&CONTAINERS).map(|(word, _)| word.as_bytes());
        return known.find(|word| rest.starts_with(word)).map_or(run, <[u8]>::len);
    }
    run
}
