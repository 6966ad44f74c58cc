//! The operators of section 11, and lists, applied to operands of any types.

use super::{assign, put_first, replace};
use crate::generate::expressions::EVERY_TYPE;
use crate::generate::random::Random;
use crate::generate::sketch::{Attribute, Sketch, DECLARED};
use crate::generate::words::{words, Words};
use crate::types::Type;

const INFIX: [&str; 19] = [
    "+", "-", "*", "/", "<", "<=", "=<", ">", ">=", "=>", "=", "!=", "and", "or", "AND", "OR", "include",
    "includes", "oneof",
];

/// Functors, and how many operands they take.
const FUNCTORS: [(&str, usize); 14] = [
    ("if", 3),
    ("-", 1),
    ("'-'", 1),
    ("isknown", 1),
    ("not", 1),
    ("count", 1),
    ("sum", 1),
    ("max", 1),
    ("min", 1),
    ("nth", 2),
    ("is_dormant", 1),
    ("is_in_progress", 1),
    ("is_discarded", 1),
    ("is_completed", 1),
];

/// Types that go together in some operator.
const FAMILIES: [&[Type]; 3] = [
    &[Type::Integer, Type::Real, Type::SetofInteger, Type::SetofReal, Type::SetofAnything],
    &[Type::Text, Type::SetofText, Type::SetofAnything],
    &[Type::TruthValue],
];

/// Puts one application of an operator into some role; its operands mostly go
/// together.
pub fn entry(sketch: &mut Sketch, random: &mut Random) {
    let application = match random.chance(50) {
        true => infix(sketch, random),
        false => call(sketch, random),
    };
    let task = random.below(sketch.tasks.len());
    match random.below(10) {
        0..=3 => {
            let word = random.pick(&["precondition", "wait_condition"]);
            replace(&mut sketch.tasks[task], Attribute::new(word, application));
        }
        4 => put_first(&mut sketch.tasks[task], Attribute::new("description", application)),
        _ => assign(sketch, random.pick(&DECLARED).0, application, random),
    }
}

/// Puts a list into a condition that any list fits, or assigns it; its elements
/// are mostly of one type.
pub fn list(sketch: &mut Sketch, random: &mut Random) {
    let wanted = [random.pick(&EVERY_TYPE)];
    let length = 1 + random.below(3);
    let elements: Vec<Words> = (0..length).map(|_| operand(sketch, &wanted, random)).collect();
    let list = [words("["), elements.join(&",".to_string()), words("]")].concat();
    let task = random.below(sketch.tasks.len());
    match random.chance(50) {
        true => {
            let condition = [words("isknown ("), list, words(")")].concat();
            replace(&mut sketch.tasks[task], Attribute::new("wait_condition", condition));
        }
        false => assign(sketch, random.pick(&["setof_text", "setof_integer", "setof_real"]), list, random),
    }
}

fn infix(sketch: &Sketch, random: &mut Random) -> Words {
    let family = random.pick(&FAMILIES);
    let (left, right) = (operand(sketch, family, random), operand(sketch, family, random));
    [left, words(random.pick(&INFIX)), right].concat()
}

/// A functor with as many operands as it takes; rarely with one more.
fn call(sketch: &Sketch, random: &mut Random) -> Words {
    let family = random.pick(&FAMILIES);
    let (functor, takes) = random.pick(&FUNCTORS);
    let mut operands = Vec::new();
    for number in 0..takes + usize::from(random.chance(3)) {
        let family = match (functor, number) {
            ("if", 0) => &[Type::TruthValue],
            ("nth", 0) => &[Type::Integer],
            _ => family,
        };
        operands.push(operand(sketch, family, random));
    }
    [words(functor), words("("), operands.join(&",".to_string()), words(")")].concat()
}

/// A bracketed operand, mostly of a type in the family.
fn operand(sketch: &Sketch, family: &[Type], random: &mut Random) -> Words {
    let wanted = if random.chance(90) { random.pick(family) } else { random.pick(&EVERY_TYPE) };
    [words("("), sketch.expression(wanted, random), words(")")].concat()
}
