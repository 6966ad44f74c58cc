//! Lines for the small program: well typed, ill typed, damaged, at and past
//! each limit, with something left out, and hostile ones.

use super::expressions::Expressions;
use super::random::Random;
use super::words::{joined, words, Words, ON_A_LINE};
use super::{damage, limits};
use crate::limits::TEXT_BYTES;
use crate::types::Type;

const TYPES: [Type; 8] = [
    Type::Integer,
    Type::Real,
    Type::Text,
    Type::TruthValue,
    Type::TruthValue,
    Type::SetofInteger,
    Type::SetofReal,
    Type::SetofText,
];

const LEFT_OUT: [&str; 24] = [
    "1.5e3",
    "-.5E1",
    "2.d2",
    "a : b",
    "'a' : 'b'",
    "a # b",
    "1 ++ a",
    "result_of ( a )",
    "netsupport ( a , b )",
    "Netsupport ( a , b )",
    "abs ( 1 )",
    "random ( )",
    "'ln' ( 2.5 )",
    "union ( [ 1 ] , [ ] )",
    "diff ( [ ] )",
    "intersect ( [ 1 ] , [ 1 ] )",
    "exp ( 1 )",
    "sin ( 0 )",
    "cos ( 0 )",
    "tan ( 0 )",
    "asin ( 0 )",
    "atan ( a )",
    "completed_time ( a )",
    "in_progress_time ( a )",
];

/// Lines without their newlines, one after the other.
pub fn lines(seed: u64, count: usize) -> impl Iterator<Item = Vec<u8>> {
    let mut random = Random::new(seed);
    (0..count).map(move |_| line(&mut random))
}

fn line(random: &mut Random) -> Vec<u8> {
    let kind = random.below(200);
    let words = match kind {
        0..=84 => well_typed(random),
        85..=114 => maker(random).wild(2),
        115..=143 => damaged(random),
        144..=170 => limits::expression(random),
        171..=181 => left_out(random),
        182 => limits::hostile(random),
        _ => well_typed(random),
    };
    let mut text = joined(&words, &ON_A_LINE, random);
    match kind {
        183..=194 => damage::a_byte(&mut text, random),
        195..=197 => text = odd_line(random),
        198 => {
            text.extend_from_slice(random.pick(&["'", "\"", " /** ", "\\", "\r", "  ", "\x7f"]).as_bytes())
        }
        199 if random.chance(20) => text.resize(limits::around(TEXT_BYTES, random), b' '),
        _ => {}
    }
    text.retain(|byte| *byte != b'\n');
    text
}

fn maker(random: &mut Random) -> Expressions<'_> {
    Expressions { random, items: &[], tasks: &[] }
}

fn well_typed(random: &mut Random) -> Words {
    let wanted = random.pick(&TYPES);
    let depth = random.below(5);
    maker(random).well_typed(wanted, depth)
}

fn damaged(random: &mut Random) -> Words {
    let mut words = well_typed(random);
    damage::a_token(&mut words, random);
    words
}

/// Something left out, alone or inside a larger expression.
fn left_out(random: &mut Random) -> Words {
    let thing = words(random.pick(&LEFT_OUT));
    let operator = words(random.pick(&["+", "=", "and", "oneof", "-"]));
    match random.below(4) {
        0 => thing,
        1 => [words("["), thing, words("]")].concat(),
        2 => [well_typed(random), operator, thing].concat(),
        _ => [thing, operator, well_typed(random)].concat(),
    }
}

fn odd_line(random: &mut Random) -> Vec<u8> {
    let length = random.below(12);
    match random.below(3) {
        0 => (0..length).map(|_| random.below(256) as u8).collect(),
        1 => vec![b' '; length],
        _ => vec![random.pick(b"-'\"(.*/1"); length],
    }
}
