//! Words before and after a lent slice that no call may change.

pub const GUARD: usize = 64;

const BEFORE: [u16; GUARD] = guard_words(0);
const AFTER: [u16; GUARD] = guard_words(GUARD);

const fn guard_words(from: usize) -> [u16; GUARD] {
    let mut words = [0; GUARD];
    let mut index = 0;
    while index < GUARD {
        words[index] = 0xa5a5 ^ (from + index) as u16;
        index += 1;
    }
    words
}

/// The words with guard words on both sides.
pub fn guarded(words: &[u16]) -> Vec<u16> {
    let mut buffer = Vec::with_capacity(words.len() + 2 * GUARD);
    put_guarded(&mut buffer, words);
    buffer
}

/// Puts the words into a buffer, with guard words on both sides, in place of what it holds.
pub fn put_guarded(buffer: &mut Vec<u16>, words: &[u16]) {
    buffer.clear();
    buffer.extend_from_slice(&BEFORE);
    buffer.extend_from_slice(words);
    buffer.extend_from_slice(&AFTER);
}

/// The words of a buffer without its guard words.
pub fn between_guards(buffer: &mut [u16]) -> &mut [u16] {
    let end = buffer.len() - GUARD;
    &mut buffer[GUARD..end]
}

/// Whether a buffer holds these words between guard words.
pub fn is_guarded(buffer: &[u16], words: &[u16]) -> bool {
    buffer.len() == words.len() + 2 * GUARD
        && buffer[..GUARD] == BEFORE
        && buffer[GUARD..][..words.len()] == *words
        && buffer[GUARD + words.len()..] == AFTER
}

/// Compares two guarded buffers of a lent slice, which the message names.
pub fn same_words(slice: &str, found: &[u16], expected: &[u16]) -> Result<(), String> {
    if found == expected {
        return Ok(());
    }
    let at = (0..expected.len()).find(|&at| found[at] != expected[at]).expect("the lengths are the same");
    let word = at as isize - GUARD as isize;
    Err(format!("at exit word {word} of {slice} is {}, expected {}", found[at], expected[at]))
}
