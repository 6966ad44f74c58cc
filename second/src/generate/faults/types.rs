//! Expressions of the wrong type.

use super::entries::{entry, list};
use super::{assign, owner, put_first, replace, Fault};
use crate::generate::expressions::{Expressions, EVERY_TYPE};
use crate::generate::random::Random;
use crate::generate::sketch::{declared_type, spelled, Attribute, Sketch};
use crate::generate::words::{words, Words};

/// Puts in an expression that may be of a wrong type, or of none.
pub fn types(sketch: &mut Sketch, random: &mut Random) {
    let faults: [Fault; 6] = [wrong_value, wrong_value, promoted, list, entry, entry];
    random.pick(&faults)(sketch, random);
}

/// An expression of any type, or of none, where one of another type may stand.
fn wrong_value(sketch: &mut Sketch, random: &mut Random) {
    let wrong = random.pick(&EVERY_TYPE);
    let value = match random.chance(40) {
        true => Expressions { random, items: &[], tasks: &[] }.wild(2),
        false => sketch.expression(wrong, random),
    };
    match sketch.items.is_empty() || random.chance(70) {
        true => wrong_attribute(sketch, value, random),
        false => wrong_assignment(sketch, value, random),
    }
}

/// Promotions, and promotions turned round: a declared type and what is
/// assigned to an item of it.
const PROMOTIONS: [(&str, &str); 30] = [
    ("real", "1"),
    ("date", "sum ( [ ] )"),
    ("time", "count ( [ ] )"),
    ("datetime", "- 7"),
    ("setof_real", "[ 1 ]"),
    ("setof_real", "[ ]"),
    ("setof_real", "if ( 1 = 1 , [ ] , [ ] )"),
    ("setof_real", "if ( 1 = 1 , [ 1 ] , [ 0.5 ] )"),
    ("setof_integer", "[ ]"),
    ("setof_integer", "if ( 1 = 1 , [ ] , [ ] )"),
    ("setof_text", "[ ]"),
    ("setof_text", "if ( 1 = 1 , [ ] , [ a ] )"),
    ("integer", "max ( [ ] )"),
    ("integer", "nth ( 1 , [ ] )"),
    ("boolean", "yes"),
    ("integer", "1.0"),
    ("integer", "7 / 7"),
    ("integer", "if ( 1 = 1 , 1 , 0.5 )"),
    ("integer", "sum ( [ 1 , 2.0 ] )"),
    ("integer", "nth ( 1.0 , [ 1 ] )"),
    ("setof_integer", "[ 1 , 2.0 ]"),
    ("setof_integer", "if ( 1 = 1 , [ ] , [ 0.5 ] )"),
    ("setof_text", "if ( 1 = 1 , [ ] , [ ] )"),
    ("setof_text", "[ 1 ]"),
    ("setof_real", "[ a ]"),
    ("setof_real", "0.5"),
    ("real", "[ 1 ]"),
    ("text", "[ ]"),
    ("text", "max ( [ ] )"),
    ("boolean", "1 = 1"),
];

/// An assignment to a new item that fits by a promotion, or does not.
fn promoted(sketch: &mut Sketch, random: &mut Random) {
    let (declared, value) = random.pick(&PROMOTIONS);
    assign(sketch, declared, words(value), random);
}

/// Changes the value of some expression, or adds a caption.
fn wrong_attribute(sketch: &mut Sketch, value: Words, random: &mut Random) {
    let is_expression =
        |one: &Attribute| !matches!(one.word, "component" | "source" | "trigger" | "type" | "postcondition");
    let number = random.below(sketch.tasks.len() + sketch.items.len());
    let owner = owner(sketch, number);
    let all = 0..owner.attributes.len();
    let found: Vec<usize> = all.filter(|at| is_expression(&owner.attributes[*at])).collect();
    match found.is_empty() {
        false => owner.attributes[random.pick(&found)].value = value,
        true => put_first(owner, Attribute::new(random.pick(&["caption", "description"]), value)),
    }
}

/// Assigns to some item twice; the second value may not fit it.
fn wrong_assignment(sketch: &mut Sketch, value: Words, random: &mut Random) {
    let item = random.choose(&sketch.items);
    let right = sketch.expression(declared_type(item), random);
    let target = vec![spelled(&item.name, random)];
    let assertion =
        [target.clone(), words("= ("), right, words(") and"), target, words("= ("), value, words(")")];
    let task = random.below(sketch.tasks.len());
    replace(&mut sketch.tasks[task], Attribute::new("postcondition", assertion.concat()));
}
