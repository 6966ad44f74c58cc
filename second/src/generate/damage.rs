//! Damage to a text: to one of its tokens, or to one of its bytes.

use super::random::Random;
use super::words::Words;

const TOKENS: [&str; 48] = [
    "a", "zzz", "'q'", "\"s\"", "1", "-1", "0", "2000001", "1.5", ".5", "1.", "0.1250", "1.5e3", "1.d2",
    "::", ";", ".", ",", "(", ")", "[", "]", ":", "=", "#", "++", "<", "=>", "!=", "+", "-", "*", "/", "and",
    "or", "AND", "oneof", "plan", "action", "end", "data", "type", "yes", "caption", "component", "source",
    "result_of", "<>",
];

const BYTES: [u8; 40] = *b"a_Z09'\"\\:;.,()[]=#+<>!-*/ \n\t\r\0\x01\x0b\x1f\x7f\x80\xff~@{e";

/// Drops, doubles, swaps, replaces or adds a token.
pub fn a_token(words: &mut Words, random: &mut Random) {
    if words.is_empty() {
        return;
    }
    let at = random.below(words.len());
    let other = random.pick(&TOKENS).to_string();
    match random.below(6) {
        0 => {
            words.remove(at);
        }
        1 => words.insert(at, words[at].clone()),
        2 => {
            let next = (at + 1) % words.len();
            words.swap(at, next);
        }
        3 => words[at] = other,
        4 => words.insert(at, other),
        _ => words.truncate(at),
    }
}

/// Drops, doubles, swaps, replaces or adds a byte; or cuts the text off.
pub fn a_byte(text: &mut Vec<u8>, random: &mut Random) {
    if text.is_empty() {
        return;
    }
    let at = random.below(text.len());
    let other = random.pick(&BYTES);
    match random.below(8) {
        0 => {
            text.remove(at);
        }
        1 => text.insert(at, text[at]),
        2 => {
            let next = (at + 1) % text.len();
            text.swap(at, next);
        }
        3 => text[at] = other,
        4 => text.insert(at, other),
        5 => text[at] ^= 32,
        6 => text[at] = text[at].wrapping_add(1),
        _ => text.truncate(at),
    }
}
