//! Short texts for the lexer: fragments of every kind of token, the boundary
//! cases of the rulings, odd bytes, and pieces of guidelines.

use super::random::Random;
use super::sketch::Sketch;
use super::words::{joined, ANYWHERE};
use super::{damage, limits};
use crate::grammar::grammar;
use crate::limits::{OPEN_BRACKETS, TEXT_BYTES, TOKENS};

const FRAGMENTS: [&str; 104] = [
    "1", "-1", "12", "007", "0", "1.", ".5", "-.5", "-1.", "1.25", "-", "--", "---", "- 5", "--5", "3-2",
    "1.5e3", "1.e5", "1.d5", "1.5E", "1.5e-3", "1e5", "1E", ".e5", ".5D10", "-.5d1", "1.2.3", "1..2", "..",
    ".", "12abc", "a1", "_", "_1", "__a", "A", "abc", "aBc_9", "e", "E5", "d", "plan", "plan1", "Plan",
    "planend", "end", "end plan.5", "end plan.", "and", "AND", "And", "or", "OR", "include", "includes",
    "includesx", "netsupport", "Netsupport", "mandatory", "mandatory_validation", "type", "typed", "'", "''",
    "'a'", "'a b'", "'a\\'b'", "'\\'", "'\\\\'", "'\\\\\\''", "\"", "\"\"", "\"a\"", "\"a\\\"b\"", "\"\\\"",
    "\"'\"", "'\"'", "\\", "/**", "**/", "/****/", "/***/", "/**/", "/** a **/", "/** a", "/*** a ***/",
    "/** **/ **/", "/", "*", "**", "/*", "*/", "::", ":", ":::", "<=>", "=<", "=>", "!=", "!", "<>", "++",
    "+++", "#",
];

const ODD: [u8; 20] = *b"\0\x01\x08\x09\x0a\x0b\x0c\x0d\x1b\x20$%&?@^`{~\x7f";

/// Texts, one after the other.
pub fn texts(seed: u64, count: usize) -> impl Iterator<Item = Vec<u8>> {
    let mut random = Random::new(seed);
    (0..count).map(move |_| text(&mut random))
}

fn text(random: &mut Random) -> Vec<u8> {
    match random.below(100) {
        0..=54 => {
            let count = random.below(14);
            fragments(count, random)
        }
        55..=69 => quotes_and_comments(random),
        70..=79 => some_bytes(random),
        80..=93 => piece_of_guideline(random),
        94..=96 => {
            let count = random.between(50, 600) as usize;
            fragments(count, random)
        }
        97 | 98 => brackets(random),
        _ => long(random),
    }
}

fn fragments(count: usize, random: &mut Random) -> Vec<u8> {
    let mut text = Vec::new();
    for _ in 0..count {
        match random.below(20) {
            0..=12 => text.extend_from_slice(random.pick(&FRAGMENTS).as_bytes()),
            13..=16 => text.extend_from_slice(random.pick(grammar().reserved()).as_bytes()),
            17 => text.push(random.below(128) as u8),
            18 if random.chance(10) => text.push(128 + random.below(128) as u8),
            _ => text.extend_from_slice(random.between(-3_000_000, 3_000_000).to_string().as_bytes()),
        }
        if random.chance(50) {
            text.extend_from_slice(random.pick(&[" ", " ", " ", "\n", "\t", "\r\n", "/****/"]).as_bytes());
        }
    }
    text
}

/// Few kinds of bytes, so that quotes and comments open and close.
fn quotes_and_comments(random: &mut Random) -> Vec<u8> {
    let alphabet: &[u8] =
        random.pick(&[&b"'\\a "[..], b"\"\\'a", b"/*", b"/* a", b"/*'\\", b"-.0e", b"-1.5ed ", b"=<>!:+#"]);
    (0..random.below(40)).map(|_| random.pick(alphabet)).collect()
}

fn some_bytes(random: &mut Random) -> Vec<u8> {
    let top = random.pick(&[128, 128, 128, 160, 256]);
    let odd = random.chance(30);
    let length = random.below(24);
    (0..length).map(|_| if odd { random.pick(&ODD) } else { random.below(top) as u8 }).collect()
}

/// A stretch of a guideline, damaged more often than not.
fn piece_of_guideline(random: &mut Random) -> Vec<u8> {
    let words = Sketch::new(random).words(random);
    let mut text = joined(&words, &ANYWHERE, random);
    let start = random.below(text.len());
    text.drain(..start);
    let length = random.below(200);
    text.truncate(length);
    if random.chance(60) {
        damage::a_byte(&mut text, random);
    }
    text
}

fn brackets(random: &mut Random) -> Vec<u8> {
    let mut text = vec![b')'; random.below(3)];
    for _ in 0..limits::around(OPEN_BRACKETS, random) {
        text.push(random.pick(b"(["));
        if random.chance(10) {
            text.extend_from_slice(random.pick(&["])", ")(", "'('", "/**(**/", " "]).as_bytes());
        }
    }
    text.extend(vec![b')'; random.below(30)]);
    text
}

/// Around the limits on bytes and tokens, or merely long.
fn long(random: &mut Random) -> Vec<u8> {
    let mut text = match random.below(5) {
        0 => vec![random.pick(b" a1'"); limits::around(TEXT_BYTES, random)],
        1 => b"a ".repeat(limits::around(TOKENS, random)),
        2 => b"-".repeat(limits::around(TOKENS, random)),
        3 => b"/** ".repeat(random.below(1_000)),
        _ => b"'\\'a' ".repeat(random.below(500)),
    };
    if random.chance(30) {
        damage::a_byte(&mut text, random);
    }
    text
}
