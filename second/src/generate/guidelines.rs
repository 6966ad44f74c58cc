//! Guidelines: right ones, ones with a fault of each kind, at and past each
//! limit, damaged and hostile ones.

use super::random::Random;
use super::sketch::Sketch;
use super::words::{joined, words, Words, ANYWHERE};
use super::{damage, faults, limits};
use crate::limits::{DATA_ITEMS, EXPRESSION_PARTS, TEXT_BYTES, TOKENS};

/// The texts of guidelines, one after the other.
pub fn guidelines(seed: u64, count: usize) -> impl Iterator<Item = Vec<u8>> {
    let mut random = Random::new(seed);
    (0..count).map(move |_| guideline(&mut random))
}

fn guideline(random: &mut Random) -> Vec<u8> {
    let kind = random.below(200);
    let mut words = match kind {
        0..=108 => with_faults(kind, random).words(random),
        109 => many_parts(limits::around(EXPRESSION_PARTS, random)),
        110 => many_tokens(limits::around(TOKENS, random)),
        _ => Sketch::new(random).words(random),
    };
    if (111..=124).contains(&kind) {
        damage::a_token(&mut words, random);
    }
    let mut text = joined(&words, &ANYWHERE, random);
    match kind {
        125..=134 => damage::a_byte(&mut text, random),
        135 | 136 => text.extend_from_slice(random.pick(&ENDS).as_bytes()),
        137 => text.resize(limits::around(TEXT_BYTES, random).max(text.len()), b' '),
        138 => text.insert(random.below(text.len()), 128 + random.below(128) as u8),
        _ => {}
    }
    text
}

/// What may come after the last definition by mistake.
const ENDS: [&str; 8] = ["'", "\"", " /** ", "\0", "x", ".", "  ", "\x7f"];

/// A guideline with one fault, and now and then with another of any kind.
fn with_faults(kind: usize, random: &mut Random) -> Sketch {
    let mut sketch = Sketch::new(random);
    match kind {
        0..=39 => faults::names(&mut sketch, random),
        40..=85 => faults::types(&mut sketch, random),
        86..=95 => faults::left_out(&mut sketch, random),
        96..=107 => faults::at_a_limit(&mut sketch, random),
        _ => faults::hostile(&mut sketch, random),
    }
    if random.chance(20) {
        let kinds = [faults::names, faults::types, faults::left_out, faults::at_a_limit];
        random.pick(&kinds)(&mut sketch, random);
    }
    sketch
}

/// A guideline with as many expression parts as are asked for.
fn many_parts(count: usize) -> Words {
    let mut text = words("plan :: root ; end plan .");
    let mut left = count;
    for number in 0..DATA_ITEMS {
        // A caption `nth ( 1 , [ .. ] )` of at most 18 parts, one text at least.
        let parts = if number + 1 == DATA_ITEMS { left } else { left.min(16) };
        let elements = vec!["x"; parts.saturating_sub(3).max(1)].join(" , ");
        let item =
            format!("data :: d{number} ; type :: text ; caption :: nth ( 1 , [ {elements} ] ) ; end data .");
        text.extend(words(&item));
        left = left.saturating_sub(parts);
    }
    text
}

/// A guideline with as many tokens as are asked for: brackets fill it up.
fn many_tokens(count: usize) -> Words {
    let bracketed = |times: usize| format!("{}x {}", "( ".repeat(times), ") ".repeat(times));
    let mut rest = Words::new();
    for number in 0..DATA_ITEMS {
        let text = bracketed(11);
        let generic = format!("caption :: {text}; description :: {text};");
        rest.extend(words(&format!("data :: d{number} ; type :: text ; {generic} end data .")));
    }
    let frame = words("plan :: root ; precondition :: 1 = 1 ; end plan .").len();
    let mut minuses = count - frame - rest.len();
    let mut generic = String::new();
    for word in ["caption", "description"] {
        let times = ((minuses - 4) / 2).min(20);
        generic += &format!("{word} :: {}; ", bracketed(times));
        minuses -= 4 + 2 * times;
    }
    let conditions = format!("precondition :: {}1 = 1 ; end plan .", "- ".repeat(minuses));
    [words(&format!("plan :: root ; {generic}{conditions}")), rest].concat()
}
