//! Makes an input that shows a difference smaller.

/// So many smaller inputs are tried at most.
const TRIES: usize = 4_000;

/// An input that still differs, from which no single line and no single byte can be taken.
pub fn shrink(input: Vec<u8>, mut differs: impl FnMut(&[u8]) -> bool) -> Vec<u8> {
    let mut tries = 0;
    let mut differs = |input: &[u8]| {
        tries += 1;
        tries <= TRIES && differs(input)
    };
    let lines: Vec<Vec<u8>> = input.split_inclusive(|&byte| byte == b'\n').map(<[u8]>::to_vec).collect();
    let lines = fewer(lines, |lines| differs(&lines.concat()));
    fewer(lines.concat(), differs)
}

/// Takes runs of items away, ever shorter ones, while what is left differs.
fn fewer<T: Clone>(mut items: Vec<T>, mut differs: impl FnMut(&[T]) -> bool) -> Vec<T> {
    let mut run = items.len();
    while run > 0 {
        let before = items.len();
        let mut at = 0;
        while at < items.len() {
            let mut rest = items.clone();
            rest.drain(at..items.len().min(at + run));
            if differs(&rest) {
                items = rest;
            } else {
                at += run;
            }
        }
        if run > 1 || items.len() == before {
            run /= 2;
        }
    }
    items
}

#[cfg(test)]
mod tests {
    use super::*;

    #[test]
    fn what_is_not_needed_goes() {
        let input = b"Nat\nPos\nNat # Pos\nBool\nInt\n".to_vec();
        assert_eq!(shrink(input, |input| input.contains(&b'#')), b"#");
    }
}
