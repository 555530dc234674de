//! Inputs and answers written by hand: `by-hand.txt` has pairs, `ends.txt` whole inputs.
//!
//! In both `\n`, `\r`, `\t`, `\0`, `\s` (a space), `\\` and `\xHH` stand for a byte, `\e` for none and
//! `{N*TEXT}` for a text N times over; a line that begins with `%` is a comment.

use std::str::Bytes;

const BY_HAND: &str = include_str!("../by-hand.txt");
const ENDS: &str = include_str!("../ends.txt");

pub struct Pair {
    pub first: Vec<u8>,
    /// None at the end of the list, where the input ends after the first line.
    pub second: Option<Vec<u8>>,
    pub answer: Vec<u8>,
}

impl Pair {
    /// The lines of the pair; a first line alone lacks its LF.
    pub fn input(&self) -> Vec<u8> {
        match &self.second {
            Some(second) => [&self.first[..], b"\n", &second[..], b"\n"].concat(),
            None => self.first.clone(),
        }
    }

    pub fn output(&self) -> Vec<u8> {
        [&self.answer[..], b"\n"].concat()
    }
}

/// The pairs of `FIRST | SECOND => ANSWER` lines.
pub fn by_hand() -> Vec<Pair> {
    let pair = |(left, answer): (&str, &str)| {
        let (first, second) = left.split_once(" | ").map_or((left, None), |(first, second)| (first, Some(second)));
        Pair { first: bytes(first), second: second.map(bytes), answer: bytes(answer) }
    };
    rows(BY_HAND).map(pair).collect()
}

/// The inputs and outputs of `INPUT => OUTPUT` lines.
pub fn ends() -> Vec<(Vec<u8>, Vec<u8>)> {
    rows(ENDS).map(|(input, output)| (bytes(input), bytes(output))).collect()
}

fn rows(text: &str) -> impl Iterator<Item = (&str, &str)> {
    let lines = text.lines().filter(|line| !line.is_empty() && !line.starts_with('%'));
    lines.map(|line| line.split_once(" => ").unwrap_or_else(|| panic!("no ` => ` in: {line}")))
}

/// The bytes for which a text with escapes stands.
fn bytes(text: &str) -> Vec<u8> {
    let mut rest = text.bytes();
    let bytes = until(&mut rest, None);
    bytes.unwrap_or_else(|| panic!("not an escape, in: {text}"))
}

/// The bytes up to an end, which is taken as well.
fn until(rest: &mut Bytes, end: Option<u8>) -> Option<Vec<u8>> {
    let mut bytes = Vec::new();
    loop {
        match rest.next() {
            next if next == end => return Some(bytes),
            Some(b'\\') => bytes.extend(escaped(rest)?),
            Some(b'{') => {
                let count = String::from_utf8(until(rest, Some(b'*'))?).ok()?;
                bytes.extend(until(rest, Some(b'}'))?.repeat(count.parse().ok()?));
            }
            next => bytes.push(next?),
        }
    }
}

/// The byte of an escape whose `\` has been taken.
fn escaped(rest: &mut Bytes) -> Option<Option<u8>> {
    let byte = match rest.next()? {
        b'e' => return Some(None),
        b'n' => b'\n',
        b'r' => b'\r',
        b't' => b'\t',
        b'0' => 0,
        b's' => b' ',
        b'\\' => b'\\',
        b'x' => {
            let digits = [rest.next()?, rest.next()?];
            u8::from_str_radix(str::from_utf8(&digits).ok()?, 16).ok()?
        }
        _ => return None,
    };
    Some(Some(byte))
}

#[cfg(test)]
mod tests {
    use super::*;

    #[test]
    fn escapes_stand_for_bytes() {
        assert_eq!(bytes(r"\eNat\s{2*#\xff{3*.}}\r\0\\"), b"Nat #\xff...#\xff...\r\0\\");
    }
}
